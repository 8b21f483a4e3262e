//! "Worked on paper": P1 to P10, and the limits listed below them.

mod common;
use common::*;
use second::judge::judge;
use second::machine::Machine;
use second::run::{run, Ran};

struct Row {
    name: &'static str,
    record: &'static [u8],
    before: &'static [(usize, u32)],
    carry: bool,
    after: &'static [(usize, u32)],
    nzcvq: &'static str,
}

const ROWS: [Row; 11] = [
    Row {
        name: "P1",
        record: &[0x01, 0, 1, 0, 1, 2, 0, 0],
        before: &[(1, 0xFFFF_FFFF), (2, 1)],
        carry: false,
        after: &[(0, 0), (15, 0x1002)],
        nzcvq: "01100",
    },
    Row {
        name: "P2",
        record: &[0x02, 2, 1, 0, 1, 1, 0, 0, 0],
        before: &[(1, 0)],
        carry: true,
        after: &[(0, 0xFFFF_FFFF)],
        nzcvq: "10000",
    },
    Row {
        name: "P3",
        record: &[0x02, 2, 3, 0, 1, 1, 0, 0, 0],
        before: &[(1, 0x8000_0000)],
        carry: false,
        after: &[(0, 0x7FFF_FFFF), (15, 0x1004)],
        nzcvq: "00110",
    },
    Row {
        name: "P4",
        record: &[0x02, 1, 1, 0, 1, 0, 0, 0, 0],
        before: &[(1, 0x7FFF_FFFF)],
        carry: true,
        after: &[(0, 0x8000_0000)],
        nzcvq: "10010",
    },
    Row {
        name: "P5",
        record: &[0x01, 10, 1, 0, 0, 1, 1, 32],
        before: &[(0, 5), (1, 0x8000_0000)],
        carry: false,
        after: &[(0, 0)],
        nzcvq: "01100",
    },
    Row {
        name: "P6",
        record: &[0x01, 10, 1, 0, 0, 1, 4, 0],
        before: &[(1, 2)],
        carry: true,
        after: &[(0, 0x8000_0001)],
        nzcvq: "10000",
    },
    Row {
        name: "P7",
        record: &[0x0A, 0, 2, 0, 16, 1, 0, 4],
        before: &[(1, 0x1000)],
        carry: false,
        after: &[(0, 0x7FFF)],
        nzcvq: "00001",
    },
    Row {
        name: "P8",
        record: &[0x0B, 1, 2, 0, 1, 8, 12],
        before: &[(0, 0xFFFF_FFFF), (1, 0xABC)],
        carry: false,
        after: &[(0, 0xFFFA_BCFF)],
        nzcvq: "00000",
    },
    Row {
        name: "P9",
        record: &[0x09, 0, 2, 0, 1, 2],
        before: &[(1, 0x8000_0000), (2, 0xFFFF_FFFF)],
        carry: false,
        after: &[(0, 0x8000_0000)],
        nzcvq: "00000",
    },
    Row {
        name: "P9, 7 by 0",
        record: &[0x09, 0, 2, 0, 1, 2],
        before: &[(0, 9), (1, 7)],
        carry: false,
        after: &[(0, 0)],
        nzcvq: "00000",
    },
    Row {
        name: "P10",
        record: &[0x12, 1, 0, 0],
        before: &[(0, 0x2001)],
        carry: false,
        after: &[(15, 0x2000), (14, 0x1003)],
        nzcvq: "00000",
    },
];

#[test]
fn p1_to_p10() {
    for row in ROWS {
        let mut before = machine(row.before);
        before.c = row.carry;
        let after = stepped(before, row.record);
        for &(register, value) in row.after {
            assert_eq!(after.registers[register], value, "{} R{register}", row.name);
        }
        assert_eq!(nzcvq(&after), row.nzcvq, "{}", row.name);
        for register in 0..15 {
            if !row.after.iter().any(|&(changed, _)| changed == register) {
                assert_eq!(after.registers[register], before.registers[register], "{}", row.name);
            }
        }
    }
}

#[test]
fn cbz_offset_126_reads_and_128_is_2() {
    assert_eq!(judge(&[0x13, 0, 0, 0, 126], 0), 0);
    assert_eq!(judge(&[0x13, 0, 0, 0, 128], 0), 2);
    assert_eq!(judge(&[0x13, 0, 0, 0, 127], 0), 2);
    assert_eq!(stepped(machine(&[]), &[0x13, 0, 0, 0, 126]).registers[15], 0x1000 + 4 + 126);
}

#[test]
fn the_last_word_of_memory_loads_and_one_byte_higher_is_6() {
    for (base, bytes) in [(BASE, 64), (0xFFFF_FFC0, 64), (0, 1_048_576)] {
        let mut memory = vec![0; bytes as usize];
        memory[bytes as usize - 1] = 0x5A;
        let last = base + (bytes - 4);
        let mut at = machine(&[(1, last)]);
        assert_eq!(second::step::step(&mut at, &single(0, 0, 1, 0, 0), &mut memory, base), 0);
        assert_eq!(at.registers[0], 0x5A00_0000);
        let mut past = machine(&[(1, last + 1)]);
        assert_eq!(second::step::step(&mut past, &single(0, 0, 1, 0, 0), &mut memory, base), 6);
        assert_eq!(past, machine(&[(1, last + 1)]));
    }
}

#[test]
fn budget_0_is_0_at_the_end_and_10_on_a_record() {
    let at = |address, listing: &[u8]| {
        let mut machine = machine(&[(15, address)]);
        run(&mut machine, listing, 0x1000, &mut [], 0, 0)
    };
    assert_eq!(at(0x1002, &NOP), Ran { number: 0, place: 0, count: 0 });
    assert_eq!(at(0x1000, &NOP), Ran { number: 10, place: 0, count: 0 });
    assert_eq!(at(0x1000, &[]), Ran { number: 0, place: 0, count: 0 });
}

#[test]
fn the_fresh_machine_is_all_zero_and_good() {
    let fresh = Machine::FRESH;
    assert_eq!(second::image::encode(&fresh), [0; 74]);
    assert!(fresh.good());
}
