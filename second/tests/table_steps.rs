//! Order 1 of paper 02: the step of kind 16 (S8 to S12).

mod common;
use common::tables::*;
use common::*;

#[test]
fn a_table_branch_changes_r15_alone() {
    for flags in 0..32u8 {
        let mut now = machine(&[(0, BASE + 8), (1, 4), (14, 0x1234_5678), (13, 0x100)]);
        [now.n, now.z, now.c, now.v, now.q] = [16, 8, 4, 2, 1].map(|bit| flags & bit != 0);
        for entry in [0, 1, 2, 0x7F, 0x80, 0xFF] {
            let mut memory = [0x55; 64];
            memory[12] = entry;
            let after = stepped_in(now, &table(TBB, 0, 1), &memory, BASE);
            assert_eq!(after, Ok(at(now, 0x1004 + 2 * u32::from(entry))));
        }
        for entry in [0u16, 1, 0x00FF, 0x0100, 0x7FFF, 0x8000, 0xFFFF] {
            let mut memory = [0x55; 64];
            memory[16..18].copy_from_slice(&entry.to_le_bytes());
            let after = stepped_in(now, &table(TBH, 0, 1), &memory, BASE);
            assert_eq!(after, Ok(at(now, 0x1004 + 2 * u32::from(entry))));
        }
    }
}

#[test]
fn the_entry_of_a_table_branch() {
    // byte i of memory is i + 1, so the entry tells its address
    let memory: Vec<u8> = (1..=64).collect();
    let byte = |i: u32| i + 1;
    let half = |i: u32| (i + 1) | (i + 2) << 8;
    for i in 0..32 {
        let now = machine(&[(2, BASE), (5, i), (14, BASE + 1), (12, 31)]);
        let after = |record: &[u8]| stepped_in(now, record, &memory, BASE);
        assert_eq!(after(&table(TBB, 2, 5)), Ok(at(now, 0x1004 + 2 * byte(i))));
        assert_eq!(after(&table(TBB, 14, 5)), Ok(at(now, 0x1004 + 2 * byte(i + 1))));
        assert_eq!(after(&table(TBH, 2, 5)), Ok(at(now, 0x1004 + 2 * half(2 * i))));
        // unaligned: never 5
        if i < 31 {
            assert_eq!(after(&table(TBH, 14, 5)), Ok(at(now, 0x1004 + 2 * half(2 * i + 1))));
        }
        // Rn and Rm the other way round
        assert_eq!(after(&table(TBB, 5, 2)), Ok(at(now, 0x1004 + 2 * byte(i))));
    }
    // Rm 14, and Rn = Rm
    let now = machine(&[(3, 20), (14, 3)]);
    let after = |record: &[u8]| stepped_in(now, record, &memory, 0);
    assert_eq!(after(&table(TBB, 3, 14)), Ok(at(now, 0x1004 + 2 * byte(23))));
    assert_eq!(after(&table(TBH, 3, 14)), Ok(at(now, 0x1004 + 2 * half(26))));
    assert_eq!(after(&table(TBB, 3, 3)), Ok(at(now, 0x1004 + 2 * byte(40))));
    assert_eq!(after(&table(TBH, 3, 3)), Ok(at(now, 0x1004 + 2 * half(60))));
    assert_eq!(after(&table(TBH, 14, 14)), Ok(at(now, 0x1004 + 2 * half(9))));
}

#[test]
fn rn_15_is_address_plus_4_with_bit_1_kept() {
    let memory: Vec<u8> = (1..=64).collect();
    for (address, table_at) in [(0x1000, 4), (0x1002, 6), (0x1004, 8), (0x1006, 10)] {
        for rm in 0..4 {
            let now = machine(&[(15, address), (7, rm)]);
            let entry = table_at + rm + 1;
            let after = stepped_in(now, &table(TBB, 15, 7), &memory, CODE);
            assert_eq!(after, Ok(at(now, address + 4 + 2 * entry)));
            let entry = (table_at + 2 * rm + 1) | (table_at + 2 * rm + 2) << 8;
            let after = stepped_in(now, &table(TBH, 15, 7), &memory, CODE);
            assert_eq!(after, Ok(at(now, address + 4 + 2 * entry)));
        }
    }
    // memory has to be lent over the table, and over no more than its entry
    let now = machine(&[(15, 0x1002), (7, 1)]);
    for op in [TBB, TBH] {
        assert_eq!(stepped_in(now, &table(op, 15, 7), &memory, BASE), Err(6));
        assert_eq!(stepped_in(now, &table(op, 15, 7), &[], CODE), Err(6));
        assert_eq!(stepped_in(now, &table(op, 15, 7), &[1; 7], CODE), Err(6));
    }
    assert_eq!(stepped_in(now, &table(TBB, 15, 7), &[3], 0x1007), Ok(at(now, 0x100C)));
    assert_eq!(stepped_in(now, &table(TBB, 15, 7), &[3], 0x1006), Err(6));
    assert_eq!(stepped_in(now, &table(TBB, 15, 7), &[3], 0x1008), Err(6));
    assert_eq!(stepped_in(now, &table(TBH, 15, 7), &[3, 0], 0x1008), Ok(at(now, 0x100C)));
    assert_eq!(stepped_in(now, &table(TBH, 15, 7), &[3, 0], 0x1007), Err(6));
    assert_eq!(stepped_in(now, &table(TBH, 15, 7), &[3, 0], 0x1009), Err(6));
}

#[test]
fn entries_at_the_edges_of_memory() {
    for (base, length) in [(BASE, 64), (BASE + 1, 7), (0xFFFF_FFC0, 64), (0x10, 1), (0x11, 2)] {
        let memory = vec![1; length as usize];
        let number = |op, address: u32| {
            stepped_in(machine(&[(0, address)]), &table(op, 0, 1), &memory, base).err()
        };
        let (first, last) = (base, base + (length - 1));
        assert_eq!(number(TBB, first), None);
        assert_eq!(number(TBB, last), None);
        assert_eq!(number(TBB, first - 1), Some(6));
        assert_eq!(number(TBB, last.wrapping_add(1)), Some(6));
        assert_eq!(number(TBH, first), if length > 1 { None } else { Some(6) });
        assert_eq!(number(TBH, last - 1), if length > 1 { None } else { Some(6) });
        assert_eq!(number(TBH, first - 1), Some(6));
        assert_eq!(number(TBH, first - 2), Some(6));
        assert_eq!(number(TBH, last), Some(6));
        assert_eq!(number(TBH, last.wrapping_add(1)), Some(6));
    }
    // no memory at all
    for op in [TBB, TBH] {
        assert_eq!(stepped_in(machine(&[]), &table(op, 0, 1), &[], 0), Err(6));
        assert_eq!(stepped_in(machine(&[(0, BASE)]), &table(op, 0, 1), &[], BASE), Err(6));
    }
}

#[test]
fn an_entry_across_2_to_the_32_is_6() {
    let now = machine(&[(0, 0xFFFF_FFFF)]);
    for base in [0, 0xFFFF_FFC0] {
        assert_eq!(stepped_in(now, &table(TBH, 0, 1), &[0; 64], base), Err(6));
    }
    assert_eq!(stepped_in(now, &table(TBB, 0, 1), &[9; 64], 0xFFFF_FFC0), Ok(at(now, 0x1016)));
    assert_eq!(stepped_in(now, &table(TBB, 0, 1), &[9; 64], 0), Err(6));
    let now = machine(&[(0, 0xFFFF_FFFE)]);
    let after = stepped_in(now, &table(TBH, 0, 1), &[1; 64], 0xFFFF_FFC0);
    assert_eq!(after, Ok(at(now, 0x1004 + 0x202)));
}

#[test]
fn addresses_of_entries_are_taken_modulo_2_to_the_32() {
    let memory: Vec<u8> = (1..=64).collect();
    for (op, rn, rm, i) in [
        (TBB, 0xFFFF_FFFF, 1, 0),
        (TBB, 0xFFFF_FFF0, 0x12, 2),
        (TBB, 0x10, 0xFFFF_FFFF, 15),
        (TBB, 0x8000_0000, 0x8000_0003, 3),
        (TBH, 0, 0x8000_0000, 0),
        (TBH, 5, 0x8000_0001, 7),
        (TBH, 0x10, 0xFFFF_FFFF, 14),
        (TBH, 0xFFFF_FFFF, 1, 1),
        (TBH, 0xFFFF_FFFF, 0xFFFF_FFFF, 0xFFFF_FFFD),
    ] {
        let now = machine(&[(0, rn), (1, rm)]);
        let wanted = match op {
            _ if i >= 64 => Err(6),
            TBB => Ok(at(now, 0x1004 + 2 * (i + 1))),
            _ => Ok(at(now, 0x1004 + 2 * ((i + 1) | (i + 2) << 8))),
        };
        assert_eq!(stepped_in(now, &table(op, 0, 1), &memory, 0), wanted, "{rn:X} {rm:X}");
    }
    // Rn 15 at the top: the table is at 0 or 2
    for (address, i) in [(0xFFFF_FFFC, 0), (0xFFFF_FFFE, 2)] {
        let now = machine(&[(15, address)]);
        let after = stepped_in(now, &table(TBB, 15, 1), &memory, 0);
        assert_eq!(after, Ok(at(now, i + 2 * (i + 1))));
    }
}

#[test]
fn targets_are_taken_modulo_2_to_the_32() {
    for (address, entry, target) in [
        (0xFFFF_FFFE, 0u16, 2),
        (0xFFFF_FFFC, 0, 0),
        (0xFFFF_FFFA, 0, 0xFFFF_FFFE),
        (0xFFFF_FFFE, 0xFF, 0x200),
        (0xFFFF_FF00, 0x7D, 0xFFFF_FFFE),
        (0xFFFF_FF00, 0x7E, 0),
        (0xFFFF_0000, 0xFFFF, 0x0001_0002),
        (0xFFFF_FFFE, 0xFFFF, 0x0002_0000),
        (0x7FFF_FFFC, 0x8000, 0x8001_0000),
        (0, 0xFFFF, 0x0002_0002),
    ] {
        let now = machine(&[(15, address), (0, BASE)]);
        let bytes = entry.to_le_bytes();
        assert_eq!(stepped_in(now, &table(TBH, 0, 1), &bytes, BASE), Ok(at(now, target)));
        if entry <= 0xFF {
            assert_eq!(stepped_in(now, &table(TBB, 0, 1), &bytes, BASE), Ok(at(now, target)));
        }
    }
}

#[test]
fn a_failed_condition_reads_no_table() {
    for op in [TBB, TBH] {
        for (condition, z, passes) in [
            (0, true, true),
            (0, false, false),
            (1, false, true),
            (1, true, false),
            (14, true, true),
        ] {
            let mut now = waits(machine(&[(0, BASE + 1), (1, 1)]), &[condition]);
            now.z = z;
            let (address, refused) =
                if passes { (0x1004 + 0x0A0A, Err(6)) } else { (0x1004, Ok(())) };
            let address = if passes && op == TBB { 0x1004 + 0x0A } else { address };
            let after = stepped_in(now, &table(op, 0, 1), &[5; 8], BASE);
            assert_eq!(after, Ok(at(now, address)));
            // without memory
            let after = stepped_in(now, &table(op, 0, 1), &[], BASE);
            assert_eq!(after, refused.map(|()| at(now, 0x1004)));
        }
    }
}
