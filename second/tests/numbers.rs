//! "The numbers given back": every row of the table, and which of two comes first.

mod common;
use common::*;
use second::check::check;
use second::run::{run, Ran};
use second::step::step;

const BX_LR: [u8; 4] = [0x12, 0, 0, 14];

fn ran(machine: second::machine::Machine, listing: &[u8], budget: u32) -> Ran {
    let mut machine = machine;
    run(&mut machine, listing, 0x1000, &mut [0; 64], BASE, budget)
}

#[test]
fn number_0() {
    assert_eq!(number(machine(&[]), &NOP), 0);
    assert_eq!(check(&NOP, 0x1000), (0, 0));
    assert_eq!(ran(machine(&[]), &NOP, 1), Ran { number: 0, place: 0, count: 1 });
}

#[test]
fn number_1_of_a_step() {
    assert_eq!(number(machine(&[(15, 0x1001)]), &NOP), 1);
    assert_eq!(number(machine(&[(13, 2)]), &NOP), 1);
    for (conditions, wanted) in [
        (&[15][..], 1),
        (&[0, 2], 1),
        (&[14, 15], 1),
        (&[14, 12], 1),
        (&[1, 0, 1, 2], 1),
        (&[14, 14], 0),
        (&[1, 0, 1, 0], 0),
    ] {
        let mut machine = machine(&[]);
        machine.waiting = waiting(conditions);
        assert_eq!(number(machine, &NOP), wanted, "{conditions:?}");
        // a bad machine comes before a bad record
        assert_eq!(number(machine, &[]), if wanted == 1 { 1 } else { 2 }, "{conditions:?}");
    }
}

#[test]
fn number_1_of_memory() {
    let with = |bytes: usize, base| step(&mut machine(&[]), &NOP, &mut vec![0; bytes], base);
    assert_eq!(with(1_048_576, 0xFFF0_0000), 0);
    assert_eq!(with(1_048_576, 0xFFF0_0001), 1);
    assert_eq!(with(1_048_577, 0), 1);
    assert_eq!(with(0, 0xFFFF_FFFF), 0);
    assert_eq!(with(1, 0xFFFF_FFFF), 0);
    assert_eq!(with(2, 0xFFFF_FFFF), 1);
}

#[test]
fn number_1_of_a_check() {
    assert_eq!(check(&[0x15, 0].repeat(32_768), 0x1000), (0, 0));
    assert_eq!(check(&[0; 65_537], 0x1000), (1, 0));
    assert_eq!(check(&[0], 0x1001), (1, 0));
    assert_eq!(check(&[], 0xFFFF_FFFE), (0, 0));
    assert_eq!(check(&[0x15, 0], 0xFFFF_FFFC), (0, 0));
    assert_eq!(check(&[0x15, 2], 0xFFFF_FFFC), (1, 2));
    assert_eq!(check(&[0x15, 0, 0x15, 0], 0xFFFF_FFFE), (1, 4));
    // 2 to 4 come before the end address, an open block among them; 9 comes after
    assert_eq!(check(&[0x15, 2, 0x18], 0xFFFF_FFFC), (2, 2));
    assert_eq!(check(&it(0, 1, 0), 0xFFFF_FFFE), (4, 5));
    assert_eq!(check(&b(14, 2), 0xFFFF_FFFE), (1, 8));
}

#[test]
fn number_1_of_a_run_comes_before_the_check() {
    assert_eq!(ran(machine(&[(13, 1)]), &[0], 1), Ran { number: 1, place: 0, count: 0 });
    let far = run(&mut machine(&[]), &[0], 0x1000, &mut [0; 2], 0xFFFF_FFFF, 1);
    assert_eq!(far, Ran { number: 1, place: 0, count: 0 });
    let listing = run(&mut machine(&[]), &[0x15, 2], 0xFFFF_FFFC, &mut [], 0, 1);
    assert_eq!(listing, Ran { number: 1, place: 2, count: 0 });
}

#[test]
fn numbers_2_3_4() {
    assert_eq!(number(machine(&[]), &[]), 2);
    assert_eq!(number(machine(&[]), &[0x15]), 2);
    assert_eq!(number(machine(&[]), &[0x15, 0, 0]), 2);
    assert_eq!(number(machine(&[]), &[0x18, 0]), 2);
    assert_eq!(number(machine(&[]), &mov(13, 0)), 3);
    let mut blocked = machine(&[]);
    blocked.waiting = waiting(&[0, 0]);
    assert_eq!(number(blocked, &b(14, 0)), 4);
    assert_eq!(number(blocked, &mov(15, 0)), 3);
    assert_eq!(check(&[&NOP[..], &mov(13, 0)].concat(), 0), (3, 2));
    assert_eq!(check(&[&NOP[..], &it(0, 2, 0), &b(14, 0), &NOP].concat(), 0), (4, 7));
    // the lowest place, then the lowest number there
    assert_eq!(check(&[&it(0, 2, 0)[..], &b(14, 0), &mov(13, 0)].concat(), 0), (4, 5));
    assert_eq!(ran(machine(&[]), &[0x15], 1), Ran { number: 2, place: 0, count: 0 });
}

#[test]
fn numbers_2_to_4_apply_though_the_condition_fails_and_5_to_7_do_not() {
    let mut machine = machine(&[(0, 2)]);
    machine.waiting = waiting(&[0]);
    assert_eq!(number(machine, &[0x15, 4]), 2);
    assert_eq!(number(machine, &mov(13, 0)), 3);
    assert_eq!(number(machine, &it(0, 1, 0)), 4);
    assert_eq!(number(machine, &double(0, 1, 2, 0, 0, 0)), 0);
    assert_eq!(number(machine, &single(0, 1, 0, 0, 0)), 0);
    assert_eq!(number(machine, &[0x12, 0, 0, 0]), 0);
    machine.z = true;
    assert_eq!(number(machine, &double(0, 1, 2, 0, 0, 0)), 5);
    assert_eq!(number(machine, &single(0, 1, 0, 0, 0)), 6);
    assert_eq!(number(machine, &[0x12, 0, 0, 0]), 7);
}

#[test]
fn number_5() {
    let odd = machine(&[(0, BASE + 2), (1, 2)]);
    assert_eq!(number(odd, &single(0, 15, 0, 0, 0)), 5);
    assert_eq!(number(odd, &[0x0E, 0, 0, 15, 0, 1, 2]), 5);
    assert_eq!(number(odd, &double(0, 2, 3, 0, 0, 4)), 5);
    assert_eq!(number(odd, &double(1, 2, 3, 0, 2, 4)), 5);
    for op in 0..4 {
        assert_eq!(number(odd, &multiple(op, 0, 1, 2)), 5);
    }
    for op in [0, 2, 4, 5, 7] {
        assert_eq!(number(odd, &single(op, 2, 0, 0, 1)), 0, "op {op}");
    }
    // 5 goes by the address alone, in memory or not
    assert_eq!(number(machine(&[(0, 2)]), &single(0, 15, 0, 0, 0)), 5);
}

#[test]
fn number_6() {
    let end = machine(&[(0, BASE + 64), (1, BASE)]);
    for (op, bytes) in [(0, 4), (1, 1), (2, 2), (3, 1), (4, 2), (5, 4), (6, 1), (7, 2)] {
        assert_eq!(number(end, &single(op, 2, 0, 0, -bytes)), 0, "op {op}");
        assert_eq!(number(end, &single(op, 2, 0, 0, 1 - bytes)), 6, "op {op}");
        assert_eq!(number(end, &single(op, 2, 1, 0, 0)), 0, "op {op}");
        assert_eq!(number(end, &single(op, 2, 1, 0, -1)), 6, "op {op}");
    }
    for op in 0..2 {
        assert_eq!(number(end, &double(op, 2, 3, 0, 0, -8)), 0);
        assert_eq!(number(end, &double(op, 2, 3, 0, 0, -4)), 6);
    }
    assert_eq!(number(end, &multiple(0, 1, 0, 0x1FFF)), 0);
    assert_eq!(number(end, &multiple(1, 0, 0, 0x5FFF)), 0);
    assert_eq!(number(machine(&[(0, BASE + 8)]), &multiple(1, 0, 1, 0x000E)), 6);
    assert_eq!(number(machine(&[(0, BASE + 56)]), &multiple(2, 0, 1, 0x000E)), 6);
    // 6 comes before 7, for the value is not known
    assert_eq!(number(end, &single(0, 15, 0, 0, 0)), 6);
}

#[test]
fn an_access_across_2_to_the_32_is_6() {
    let mut memory = [0; 64];
    for base in [0, 0xFFFF_FFC0] {
        let mut machine = machine(&[(0, 0xFFFF_FFFE)]);
        assert_eq!(step(&mut machine, &single(0, 1, 0, 0, 0), &mut memory, base), 6);
        assert_eq!(
            step(&mut machine, &single(2, 1, 0, 0, 0), &mut memory, base),
            if base == 0 { 6 } else { 0 }
        );
    }
}

#[test]
fn number_7() {
    let m = machine(&[(0, BASE), (1, 2), (13, BASE)]);
    // R15 by LDR, LDM, BX, BLX: all memory is 0
    assert_eq!(number(m, &single(0, 15, 0, 0, 0)), 7);
    assert_eq!(number(m, &[0x0E, 0, 0, 15, 0, 2, 0]), 7);
    assert_eq!(number(m, &multiple(0, 0, 1, 0x8000)), 7);
    assert_eq!(number(m, &[0x12, 0, 0, 1]), 7);
    assert_eq!(number(m, &[0x12, 1, 0, 1]), 7);
    assert_eq!(number(m, &[0x12, 0, 0, 13]), 7);
    assert_eq!(number(m, &[0x12, 0, 0, 15]), 7);
    // ADD and MOV never refuse for it
    assert_eq!(stepped(m, &[0x01, 10, 0, 15, 0, 1, 0, 0]).registers[15], 2);
    assert_eq!(stepped(m, &[0x01, 0, 0, 15, 15, 1, 0, 0]).registers[15], 0x1006);
    // R13
    assert_eq!(number(m, &[0x01, 10, 0, 13, 0, 1, 0, 0]), 7);
    assert_eq!(number(m, &[0x01, 0, 0, 13, 13, 1, 0, 0]), 7);
    assert_eq!(number(m, &[0x01, 0, 0, 13, 13, 1, 0, 1]), 0);
    assert_eq!(number(m, &[0x02, 2, 1, 13, 13, 1, 0, 0, 0]), 7);
    assert_eq!(number(m, &[0x04, 0, 2, 13, 13, 2, 0]), 7);
    assert_eq!(number(machine(&[(15, 0x1002)]), &[0x01, 10, 0, 13, 0, 15, 0, 0]), 7);
    for mode in 1..3 {
        for op in [0, 5] {
            assert_eq!(number(m, &single(op, 1, 13, mode, 2)), 7);
            assert_eq!(number(m, &single(op, 1, 13, mode, 4)), 0);
        }
    }
    let mut memory = [1; 64];
    let mut loading = m;
    assert_eq!(step(&mut loading, &single(0, 13, 0, 0, 0), &mut memory, BASE), 7);
    assert_eq!(loading, m);
    assert_eq!(step(&mut loading, &single(0, 15, 0, 0, 0), &mut memory, BASE), 0);
    assert_eq!(loading.registers[15], 0x0101_0100);
}

#[test]
fn number_8() {
    let listing = [&it(1, 2, 1)[..], &NOP, &NOP, &NOP].concat();
    let at = |address, conditions: &[u8]| {
        let mut machine = machine(&[(15, address)]);
        machine.waiting = waiting(conditions);
        ran(machine, &listing, 0).number
    };
    assert_eq!(at(0x1000, &[]), 10);
    assert_eq!(at(0x1002, &[1, 0]), 10);
    assert_eq!(at(0x1004, &[0]), 10);
    assert_eq!(at(0x1006, &[]), 10);
    assert_eq!(at(0x1008, &[]), 0);
    for (address, conditions) in [
        (0x0FFE, &[][..]),
        (0x100A, &[]),
        (0x1000, &[1]),
        (0x1002, &[]),
        (0x1002, &[0, 1]),
        (0x1002, &[1]),
        (0x1004, &[1]),
        (0x1004, &[0, 1]),
        (0x1006, &[0]),
        (0x1008, &[0]),
    ] {
        assert_eq!(at(address, conditions), 8, "{address:X} {conditions:?}");
    }
    let inside_a_long_record = ran(machine(&[(15, 0x1002)]), &[0x15, 2], 9);
    assert_eq!(inside_a_long_record, Ran { number: 8, place: 0, count: 0 });
    let gone = ran(machine(&[(14, 0x3001)]), &BX_LR, 9);
    assert_eq!(gone, Ran { number: 8, place: 0, count: 1 });
}

#[test]
fn number_9() {
    assert_eq!(check(&b(14, -2), 0x1000), (0, 0));
    assert_eq!(check(&b(14, -4), 0x1000), (0, 0));
    assert_eq!(check(&b(14, 0), 0x1000), (9, 0));
    assert_eq!(check(&[&NOP[..], &b(14, -8)].concat(), 0x1000), (9, 2));
    // into a block; to the IT itself; out of its last record
    let block = |offset| [&b(14, offset)[..], &it(0, 1, 0), &b(14, -4), &NOP].concat();
    assert_eq!(check(&block(0), 0x1000), (9, 0));
    assert_eq!(check(&block(-2), 0x1000), (9, 13));
    let landing = [&b(14, -2)[..], &it(0, 1, 0), &b(14, -8), &NOP].concat();
    assert_eq!(check(&landing, 0x1000), (0, 0));
    // targets are taken modulo 2^32
    assert_eq!(check(&b(14, -8), 0), (9, 0));
    assert_eq!(check(&[0x13, 0, 0, 0, 126], 0xFFFF_FFF0), (9, 0));
    assert_eq!(check(&bl(0), 0x1000), (0, 0));
    assert_eq!(check(&[&[0x13, 1, 0, 0, 0][..], &[0x15, 2]].concat(), 0x1000), (9, 0));
}

#[test]
fn number_10() {
    let mut machine = machine(&[]);
    let ran = run(&mut machine, &b(14, -4), 0x1000, &mut [], 0, 1234);
    assert_eq!(ran, Ran { number: 10, place: 0, count: 1234 });
    assert_eq!(machine.registers[15], 0x1000);
}

#[test]
fn a_refused_step_of_a_run_gives_its_place_and_keeps_what_came_before() {
    let mut machine = machine(&[]);
    let listing = [&mov(0, 5)[..], &it(1, 1, 0), &single(0, 0, 0, 0, 0), &NOP].concat();
    let ran = run(&mut machine, &listing, 0x1000, &mut [], 0, 9);
    assert_eq!(ran, Ran { number: 6, place: 14, count: 2 });
    assert_eq!((machine.registers[0], machine.registers[15]), (5, 0x1004));
    assert_eq!(machine.waiting, waiting(&[1]));
}
