//! Order 6 of paper 02: resumes (S45 to S52).

mod common;
use common::places::*;
use common::tables::*;
use common::*;
use second::machine::Machine;
use second::run::{resume, stored_from_number};

/// Places right and wrong: each up to the sample's length and some past it, and what might be taken
/// for one.
fn all_stored() -> Vec<Option<u32>> {
    let odd = [65_536, 0x1000, 0x1002, 0x101A, 0x8000_0000, 0xFFFF_FFFE, 0xFFFF_FFFF];
    (0..=40).chain(odd).map(Some).chain([None]).collect()
}

#[test]
fn it_agrees_or_is_1() {
    let lists: [&[u8]; 5] = [&[], &[1], &[1, 1], &[0], &[14]];
    for (address, place, _) in WALK {
        for list in lists {
            let now = waits(machine(&[(15, address), (14, 0x1015), (3, BASE)]), list);
            for budget in [0, 1, 9] {
                let fresh = begun_in(&[7; 64], now, &sample(), budget);
                for stored in all_stored() {
                    let found = resumed_in(&[7; 64], now, &sample(), stored, budget);
                    if stored == place {
                        assert_eq!(found, fresh, "{address:X} {list:?}");
                    } else {
                        let refused = (halted(1, 0, 0, stored), now, vec![7; 64]);
                        assert_eq!(found, refused, "{address:X} {list:?} {stored:?}");
                    }
                }
            }
        }
    }
}

#[test]
fn with_none() {
    // astray, inside a record, at a filler, inside it, at the next one: it agrees
    for address in [0, 0x0FFE, 0x101C, 0xFFFF_FFFE, 0x1006, 0x100C, 0x100E, 0x1012] {
        for budget in [0, 9] {
            let now = machine(&[(15, address)]);
            assert_eq!(resumed(now, &sample(), None, budget), halted(8, 0, 0, None));
            let now = waits(now, &[1]);
            assert_eq!(resumed(now, &sample(), None, budget), halted(8, 0, 0, None));
        }
    }
    // at a record, in a block or not, and at the end
    for (address, waiting) in
        [(0x1000, &[][..]), (0x1004, &[1, 1]), (0x1008, &[1]), (0x1014, &[]), (0x101A, &[])]
    {
        for budget in [0, 9] {
            let now = waits(machine(&[(15, address)]), waiting);
            assert_eq!(resumed(now, &sample(), None, budget), halted(1, 0, 0, None));
        }
    }
    // as a number
    assert_eq!(stored_from_number(0xFFFF_FFFF), None);
    let filler = machine(&[(15, 0x100C)]);
    for number in [22, 25, 0, 0xFFFF_FFFE] {
        let stored = stored_from_number(number);
        assert_eq!(resumed(filler, &sample(), stored, 9), halted(1, 0, 0, Some(number)));
    }
}

#[test]
fn with_another_list_than_the_layouts() {
    let lists: [&[u8]; 5] = [&[], &[1], &[1, 1], &[0], &[14]];
    let mut tried = 0;
    for (address, place, waiting) in WALK {
        for list in lists {
            if place.is_some() && list != waiting {
                tried += 1;
                let now = waits(machine(&[(15, address)]), list);
                for budget in [0, 9] {
                    let wanted = halted(8, 0, 0, place);
                    assert_eq!(resumed(now, &sample(), place, budget), wanted, "{address:X}");
                }
            }
        }
    }
    assert_eq!(tried, 8 * 4);
}

#[test]
fn machine_and_memory_then_the_check_then_the_place() {
    let good = machine(&[]);
    let resumed = |now: Machine, listing: &[u8], base, memory: &mut [u8], memory_base, stored| {
        let mut machine = now;
        let halt = resume(&mut machine, listing, base, memory, memory_base, 9, stored);
        assert_eq!(machine, now);
        halt
    };
    // what is refused keeps the place, right or wrong
    for stored in [None, Some(0), Some(2), Some(7), Some(0xFFFF_FFFE)] {
        let unfit = halted(1, 0, 0, stored);
        for (listing, number, place) in refused_listings() {
            for bad in [machine(&[(13, 2)]), machine(&[(15, 0x1001)]), waits(good, &[15])] {
                assert_eq!(resumed(bad, &listing, CODE, &mut [], 0, stored), unfit);
            }
            assert_eq!(resumed(good, &listing, CODE, &mut [0; 2], 0xFFFF_FFFF, stored), unfit);
            let wanted = halted(number, place, 0, stored);
            assert_eq!(resumed(good, &listing, CODE, &mut [], 0, stored), wanted);
            // astray, or with conditions waiting, it is the same
            let stray = machine(&[(15, 0x0800)]);
            assert_eq!(resumed(stray, &listing, CODE, &mut [], 0, stored), wanted);
            assert_eq!(resumed(waits(good, &[0]), &listing, CODE, &mut [], 0, stored), wanted);
        }
        for bad in [machine(&[(13, 2)]), waits(good, &[1, 2])] {
            assert_eq!(resumed(bad, &NOP, CODE, &mut [], 0, stored), unfit);
        }
        assert_eq!(resumed(good, &NOP, CODE, &mut vec![0; 1_048_577], 0, stored), unfit);
        assert_eq!(resumed(good, &NOP, 0x1001, &mut [], 0, stored), unfit);
        let high = machine(&[(15, 0xFFFF_FFFE)]);
        let wanted = halted(1, 2, 0, stored);
        assert_eq!(resumed(high, &NOP, 0xFFFF_FFFE, &mut [], 0, stored), wanted);
    }
}

#[test]
fn the_place_before_the_rounds() {
    // LDR past memory, BX to an even address
    let listing = join(&[&mov(1, 1), &single(0, 0, 4, 0, 0), &bx(14), &filler(4)]);
    for (address, place, budget, number, at) in [
        (0x100A, Some(24), 0, 0, 0),
        (0x100A, Some(24), 9, 0, 0),
        (0x0FFE, None, 9, 8, 0),
        (0x1006, None, 0, 8, 0),
        (0x1000, Some(0), 0, 10, 0),
        (0x1004, Some(17), 0, 10, 0),
        (0x1002, Some(9), 9, 6, 9),
        (0x1004, Some(17), 9, 7, 17),
    ] {
        let now = machine(&[(15, address)]);
        assert_eq!(resumed(now, &listing, place, budget), halted(number, at, 0, place));
        for wrong in all_stored().into_iter().filter(|&stored| stored != place) {
            assert_eq!(resumed(now, &listing, wrong, budget), halted(1, 0, 0, wrong));
        }
    }
}

#[test]
fn a_budget_and_a_count_of_its_own() {
    let now = machine(&[(14, 0x1015), (3, BASE)]);
    let (halt, then, memory) = begun_in(&[7; 64], now, &sample(), 3);
    assert_eq!(halt, halted(10, 0, 3, Some(16)));
    let go = |budget| resumed_in(&memory, then, &sample(), halt.stored, budget);
    // as often as wanted, no step at all
    assert_eq!(go(0), (halted(10, 0, 0, Some(16)), then, memory.clone()));
    assert_eq!(go(1).0, halted(10, 0, 1, Some(18)));
    assert_eq!(go(2).0, halted(10, 0, 2, Some(28)));
    assert_eq!(go(3).0, halted(10, 0, 3, Some(36)));
    assert_eq!(go(4).0, halted(0, 0, 4, Some(38)));
    assert_eq!(go(u32::MAX), (halted(0, 0, 4, Some(38)), go(4).1, memory.clone()));
    assert_eq!(go(4).1, begun_in(&[7; 64], now, &sample(), 9).1);
}

#[test]
fn after_another_end_than_10() {
    // after 0 it is 0 again
    let now = machine(&[(14, 0x1015), (3, BASE)]);
    let (halt, ended, _) = begun_in(&[0; 64], now, &sample(), 9);
    assert_eq!(halt, halted(0, 0, 7, Some(38)));
    assert_eq!(resumed(ended, &sample(), halt.stored, 9), halted(0, 0, 0, Some(38)));
    // after 8 it is 8 again; with R15 put at a record the place has to be put right too
    let (halt, stray, _) = begun_in(&[0; 64], machine(&[(14, 0x100D)]), &sample(), 9);
    assert_eq!(halt, halted(8, 0, 5, None));
    assert_eq!(resumed(stray, &sample(), None, 9), halted(8, 0, 0, None));
    let put = at(stray, 0x1016);
    assert_eq!(resumed(put, &sample(), None, 9), halted(1, 0, 0, None));
    assert_eq!(resumed(put, &sample(), Some(36), 9), halted(0, 0, 1, Some(38)));
    // after 8 in a block with nothing waiting; then with the layout's
    let (halt, inside, _) = begun_in(&[0; 64], machine(&[(14, 0x1009)]), &sample(), 9);
    assert_eq!(halt, halted(8, 0, 5, Some(16)));
    assert_eq!(resumed(inside, &sample(), halt.stored, 9), halted(8, 0, 0, Some(16)));
    assert_eq!(resumed(waits(inside, &[1]), &sample(), halt.stored, 1).ran, ran(10, 0, 1));
    // after 6 it is 6 again; with memory there the run goes on
    let (halt, refused, _) = begun_in(&[0; 3], now, &sample(), 9);
    assert_eq!(halt, halted(6, 28, 5, Some(28)));
    let again = resumed_in(&[0; 3], refused, &sample(), halt.stored, 9);
    assert_eq!(again, (halted(6, 28, 0, Some(28)), refused, vec![0; 3]));
    let (halt, ended, _) = resumed_in(&[1, 2, 3, 4], refused, &sample(), halt.stored, 9);
    assert_eq!((halt, ended.registers[2]), (halted(0, 0, 2, Some(38)), 0x0403_0201));
    // after 7, with R14 put right
    let (halt, mut refused, _) = begun_in(&[0; 64], machine(&[(3, BASE)]), &sample(), 9);
    assert_eq!(halt, halted(7, 18, 4, Some(18)));
    assert_eq!(resumed(refused, &sample(), halt.stored, 9), halted(7, 18, 0, Some(18)));
    refused.registers[14] = 0x1015;
    assert_eq!(resumed(refused, &sample(), halt.stored, 9), halted(0, 0, 3, Some(38)));
    // after the 1 of a wrong place, with the right one
    assert_eq!(resumed(refused, &sample(), Some(16), 9), halted(1, 0, 0, Some(16)));
    assert_eq!(resumed(refused, &sample(), Some(18), 9), halted(0, 0, 3, Some(38)));
}

#[test]
fn with_another_listing() {
    let (halt, now, _) = begun_in(&[0; 64], machine(&[]), &join(&[&mov(0, 1), &mov(1, 2)]), 1);
    assert_eq!(halt, halted(10, 0, 1, Some(9)));
    // the same place at R15, and another record there
    let same = join(&[&mov(0, 7), &mov(2, 5)]);
    let (halt, after, _) = resumed_in(&[], now, &same, Some(9), 9);
    assert_eq!(halt, halted(0, 0, 1, Some(18)));
    assert_eq!(after.registers[..3], [1, 0, 5]);
    // the end there
    assert_eq!(resumed(now, &mov(0, 7), Some(9), 0), halted(0, 0, 0, Some(9)));
    // the same place, in a block now
    let block = join(&[&[0x15, 2], &it(14, 2, 0), &NOP, &NOP]);
    assert_eq!(resumed(at(now, 0x1006), &block, Some(7), 9), halted(8, 0, 0, Some(7)));
    // a record at R15 with another place, and at the place with another address
    let other = join(&[&NOP, &[0x15, 2], &it(14, 1, 0), &NOP, &NOP]);
    assert_eq!(resumed(now, &other, Some(9), 9), halted(1, 0, 0, Some(9)));
    assert_eq!(resumed(now, &other, Some(2), 9), halted(0, 0, 4, Some(13)));
    assert_eq!(resumed(at(now, 0x1006), &other, Some(9), 9), halted(1, 0, 0, Some(9)));
    // a filler there, or nothing
    let first = join(&[&b(14, 2), &[0x17, 4, 0], &NOP]);
    assert_eq!(resumed(now, &first, Some(9), 9), halted(1, 0, 0, Some(9)));
    assert_eq!(resumed(now, &first, Some(8), 9), halted(1, 0, 0, Some(8)));
    assert_eq!(resumed(now, &first, None, 9), halted(8, 0, 0, None));
    // another base
    let listing = join(&[&mov(0, 1), &mov(1, 2)]);
    let mut moved = now;
    let halt = resume(&mut moved, &listing, 0x1002, &mut [], 0, 9, Some(9));
    assert_eq!((halt, moved), (halted(1, 0, 0, Some(9)), now));
    let halt = resume(&mut moved, &listing, 0x1002, &mut [], 0, 9, Some(0));
    assert_eq!(halt, halted(0, 0, 2, Some(18)));
    // the check is made again
    for (listing, number, place) in refused_listings() {
        assert_eq!(resumed(now, &listing, Some(2), 9), halted(number, place, 0, Some(2)));
    }
}

#[test]
fn an_empty_listing() {
    for budget in [0, 9] {
        assert_eq!(resumed(machine(&[]), &[], Some(0), budget), halted(0, 0, 0, Some(0)));
        assert_eq!(resumed(machine(&[]), &[], None, budget), halted(1, 0, 0, None));
        assert_eq!(resumed(machine(&[]), &[], Some(1), budget), halted(1, 0, 0, Some(1)));
        let waiting = waits(machine(&[]), &[0]);
        assert_eq!(resumed(waiting, &[], Some(0), budget), halted(8, 0, 0, Some(0)));
        assert_eq!(resumed(waiting, &[], None, budget), halted(1, 0, 0, None));
        let stray = machine(&[(15, 0x1002)]);
        assert_eq!(resumed(stray, &[], None, budget), halted(8, 0, 0, None));
        assert_eq!(resumed(stray, &[], Some(0), budget), halted(1, 0, 0, Some(0)));
    }
}
