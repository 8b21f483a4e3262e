//! Order 1 of paper 02, kinds 16 and 17: which bytes are records, and which are restricted or in a wrong spot (S1 to S7, S17).

mod common;
use common::tables::*;
use common::*;
use second::check::check;
use second::judge::judge;
use second::read::read;
use second::record::{Action, Control, Record};

#[test]
fn kind_16_is_read() {
    for (op, halves) in [(TBB, false), (TBH, true)] {
        for (rn, rm) in (0..16).flat_map(|rn| (0..16).map(move |rm| (rn, rm))) {
            let action = Action::Control(Control::TableBranch { halves, rn, rm });
            let record = Record { s: false, four_bytes: true, action };
            assert_eq!(read(&table(op, rn, rm), 0), Ok((record, 5)));
            assert_eq!(record.machine_length(), 4);
            assert!(record.takes_address());
            assert_eq!(record.direct_target(CODE), None);
        }
    }
}

#[test]
fn kind_16_with_a_field_not_as_stated_is_2() {
    let whole = table(TBH, 3, 4);
    for length in 0..5 {
        assert_eq!(judge(&whole[..length], 0), 2);
        assert_eq!(check(&whole[..length], CODE), if length == 0 { (0, 0) } else { (2, 0) });
    }
    assert_eq!(judge(&join(&[&whole, &[0]]), 0), 2);
    for value in 0..=255 {
        let with = |at: usize| {
            let mut record = whole.clone();
            record[at] = value;
            judge(&record, 0) != 2
        };
        assert_eq!(with(1), value <= 1, "op {value}");
        assert_eq!(with(2), value == 2, "form {value}");
        assert_eq!(with(3), value <= 15, "Rn {value}");
        assert_eq!(with(4), value <= 15, "Rm {value}");
    }
    // 2 comes before 3
    assert_eq!(judge(&[0x16, 0, 0, 13, 13], 0), 2);
    assert_eq!(judge(&[0x16, 2, 2, 13, 13], 0), 2);
    assert_eq!(judge(&[0x16, 0, 2, 13, 16], 0), 2);
}

#[test]
fn the_kinds_are_hex() {
    // decimal 16 and 17 are LDM, STM and B, BL
    assert_eq!(judge(&[16, 0, 2, 0, 1], 0), 2);
    assert_eq!(judge(&[17, 2, 0], 0), 2);
    assert_eq!(judge(&[0x16, 0, 2, 0, 1], 0), 0);
    assert_eq!(judge(&[0x17, 2, 0], 0), 3);
}

#[test]
fn kind_17_is_read_with_each_even_number_from_2() {
    for number in 0..=0xFFFFu16 {
        let record = filler(number);
        if number == 0 || number % 2 == 1 {
            assert_eq!(read(&record, 0), Err(2), "{number}");
            assert_eq!(judge(&record, 0), 2, "{number}");
            assert_eq!(check(&record, 0), (2, 0), "{number}");
        } else {
            let (found, length) = read(&record, 0).unwrap();
            assert_eq!((found.action, length), (Action::Filler { bytes: number }, 3));
            assert_eq!(found.machine_length(), u32::from(number));
            assert!(!found.takes_address());
            assert_eq!(found.direct_target(CODE), None);
            assert_eq!(judge(&record, 0), 3, "{number}");
            assert_eq!(check(&record, 0), (0, 0), "{number}");
        }
    }
    // low byte first
    assert_eq!(read(&[0x17, 0x02, 0x01], 0).unwrap().0.machine_length(), 0x102);
    assert_eq!(read(&[0x17, 0x00, 0x01], 0).unwrap().0.machine_length(), 0x100);
}

#[test]
fn kind_17_cut_short_or_with_more_is_2() {
    for waiting in 0..5 {
        assert_eq!(judge(&[0x17], waiting), 2);
        assert_eq!(judge(&[0x17, 2], waiting), 2);
        assert_eq!(judge(&[0x17, 2, 0, 0], waiting), 2);
        assert_eq!(judge(&[0x17, 2, 0, 0, 0], waiting), 2);
    }
    assert_eq!(checked(&[&[0x17]]), (2, 0));
    assert_eq!(checked(&[&[0x17, 2]]), (2, 0));
    assert_eq!(checked(&[&b(14, -4), &[0x17, 2]]), (2, 8));
}

#[test]
fn registers_of_kind_16() {
    for (rn, rm) in (0..16).flat_map(|rn| (0..16).map(move |rm| (rn, rm))) {
        let wanted = if rn == 13 || rm == 13 || rm == 15 { 3 } else { 0 };
        for op in [TBB, TBH] {
            assert_eq!(judge(&table(op, rn, rm), 0), wanted, "{rn} {rm}");
            assert_eq!(judge(&table(op, rn, rm), 1), wanted, "{rn} {rm}");
            assert_eq!(check(&table(op, rn, rm), CODE), (wanted, 0), "{rn} {rm}");
        }
    }
}

#[test]
fn kind_16_is_last_in_its_block() {
    for op in [TBB, TBH] {
        let spots = |rn, rm| [0, 1, 2, 3, 4].map(|waiting| judge(&table(op, rn, rm), waiting));
        assert_eq!(spots(0, 1), [0, 0, 4, 4, 4]);
        assert_eq!(spots(15, 14), [0, 0, 4, 4, 4]);
        // 3 comes before 4
        assert_eq!(spots(13, 1), [3; 5]);
        assert_eq!(spots(0, 15), [3; 5]);
        for condition in CONDITIONS {
            let block = it(condition, 2, 0);
            assert_eq!(checked(&[&block, &table(op, 0, 1), &NOP]), (4, 5));
            assert_eq!(checked(&[&block, &NOP, &table(op, 0, 1)]), (0, 0));
            assert_eq!(checked(&[&it(condition, 1, 0), &table(op, 0, 1)]), (0, 0));
            // whether the condition passes or not, and before 6
            let now = waits(machine(&[]), &[condition, condition]);
            assert_eq!(stepped_in(now, &table(op, 0, 1), &[], BASE), Err(4));
            assert_eq!(stepped_in(now, &table(op, 0, 13), &[], BASE), Err(3));
        }
    }
}

#[test]
fn a_lone_filler_is_3_after_1_and_2() {
    let waitings: [&[u8]; 8] = [&[], &[0], &[1], &[14], &[0, 1], &[1, 1, 0], &[0; 4], &[14; 4]];
    for conditions in waitings {
        for number in [2, 4, 0x102, 65_534] {
            let now = waits(machine(&[]), conditions);
            assert_eq!(stepped_in(now, &filler(number), &[7; 64], BASE), Err(3));
            assert_eq!(stepped_in(now, &filler(number), &[7; 64], CODE), Err(3));
            assert_eq!(judge(&filler(number), conditions.len()), 3);
        }
        for number in [0, 1, 3, 65_535] {
            let now = waits(machine(&[]), conditions);
            assert_eq!(stepped_in(now, &filler(number), &[], BASE), Err(2));
        }
    }
    for bad in [machine(&[(13, 2)]), machine(&[(15, 1)]), waits(machine(&[]), &[15])] {
        assert_eq!(stepped_in(bad, &filler(2), &[], BASE), Err(1));
        assert_eq!(stepped_in(bad, &filler(1), &[], BASE), Err(1));
        assert_eq!(stepped_in(bad, &table(TBB, 13, 0), &[], BASE), Err(1));
    }
    assert_eq!(stepped_in(machine(&[]), &filler(2), &[0; 2], 0xFFFF_FFFF), Err(1));
    assert_eq!(stepped_in(machine(&[]), &table(TBB, 0, 0), &[0; 2], 0xFFFF_FFFF), Err(1));
}
