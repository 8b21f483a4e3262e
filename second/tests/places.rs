//! Order 6 of paper 02: what a fresh run leaves stored at each of its ends (S43 to S47, S52).

mod common;
use common::places::*;
use common::tables::*;
use common::*;
use second::machine::Machine;
use second::run::{begin, run, stored_as_number, stored_from_number};

#[test]
fn the_place_is_not_in_the_machine() {
    // each field of the machine, so one more would not be built
    let Machine { registers, n, z, c, v, q, waiting } = machine(&[(14, 0x1015), (3, BASE)]);
    let now = Machine { registers, n, z, c, v, q, waiting };
    assert_eq!(second::image::BYTES, 74);
    // a lone step goes on where a run was halted, and the run goes on behind the lone step
    let (halt, mut alone, mut memory) = begun_in(&[7; 64], now, &sample(), 4);
    assert_eq!(halt, halted(10, 0, 4, Some(18)));
    assert_eq!(second::step::step(&mut alone, &bx(14), &mut memory, BASE), 0);
    assert_eq!((halted(10, 0, 5, Some(28)), alone, memory), begun_in(&[7; 64], now, &sample(), 5));
    assert!(alone.good());
    assert_eq!(resumed_in(&[7; 64], alone, &sample(), Some(28), 9).0, halted(0, 0, 2, Some(38)));
}

#[test]
fn by_r15_alone() {
    let lists: [&[u8]; 7] = [&[], &[1], &[1, 1], &[0], &[14], &[1, 0], &[1, 1, 1, 1]];
    for (address, place, waiting) in WALK {
        for list in lists {
            let number = match place {
                Some(_) if list != waiting => 8,
                Some(LENGTH) => 0,
                Some(_) => 10,
                None => 8,
            };
            let now = waits(machine(&[(15, address)]), list);
            let wanted = halted(number, 0, 0, place);
            assert_eq!(begun(now, &sample(), 0), wanted, "{address:X} {list:?}");
        }
    }
}

#[test]
fn as_a_number() {
    for number in [0, 1, 38, 65_535, 65_536, 0x7FFF_FFFF, 0x8000_0000, 0xFFFF_FFFE] {
        assert_eq!(stored_from_number(number), Some(number));
        assert_eq!(stored_as_number(Some(number)), number);
    }
    assert_eq!(stored_from_number(0xFFFF_FFFF), None);
    assert_eq!(stored_as_number(None), 0xFFFF_FFFF);
}

#[test]
fn at_the_end() {
    let now = machine(&[(14, 0x1015), (3, BASE)]);
    assert_eq!(begun(now, &sample(), 9), halted(0, 0, 7, Some(38)));
    assert_eq!(begun(now, &sample(), 7), halted(0, 0, 7, Some(38)));
    // by a jump to it, also from a block, and right behind a filler
    assert_eq!(begun(machine(&[(14, 0x101B)]), &sample(), 9), halted(0, 0, 5, Some(38)));
    assert_eq!(begun(machine(&[]), &b(14, -2), 9), halted(0, 0, 1, Some(8)));
    for condition in CONDITIONS {
        let block = join(&[&it(condition, 1, 0), &b(14, -2)]);
        assert_eq!(begun(machine(&[]), &block, 9), halted(0, 0, 2, Some(13)));
    }
    let listing = join(&[&b(14, 65_532), &filler(65_534)]);
    assert_eq!(begun(machine(&[]), &listing, 9), halted(0, 0, 1, Some(11)));
    // at once
    assert_eq!(begun(machine(&[(15, 0x101A)]), &sample(), 9), halted(0, 0, 0, Some(38)));
    // with something waiting
    let now = waits(machine(&[(15, 0x101A)]), &[14]);
    assert_eq!(begun(now, &sample(), 9), halted(8, 0, 0, Some(38)));
}

#[test]
fn when_the_steps_are_used_up() {
    let now = machine(&[(14, 0x1015), (3, BASE)]);
    for (budget, place) in (0..).zip([0, 9, 14, 16, 18, 28, 36]) {
        assert_eq!(begun(now, &sample(), budget), halted(10, 0, budget, Some(place)));
    }
    // the same in a block whose condition fails
    let mut equal = now;
    equal.z = true;
    assert_eq!(begun(equal, &sample(), 3), halted(10, 0, 3, Some(16)));
    // after a branch back, and to itself
    let listing = join(&[&NOP, &mov(0, 1), &b(14, -6)]);
    assert_eq!(begun(machine(&[]), &listing, 3), halted(10, 0, 3, Some(2)));
    assert_eq!(begun(machine(&[]), &b(14, -4), 1_000), halted(10, 0, 1_000, Some(0)));
}

#[test]
fn at_a_refused_step() {
    // LDR to R15 unaligned 5, LDR past memory 6, BX to an even address 7
    for (number, record) in [(5, single(0, 15, 3, 0, 2)), (6, single(0, 0, 4, 0, 0)), (7, bx(0))] {
        let now = machine(&[(3, BASE)]);
        let alone = join(&[&record, &NOP]);
        assert_eq!(begun(now, &alone, 9), halted(number, 0, 0, Some(0)));
        let later = join(&[&mov(1, 1), &NOP, &record, &NOP]);
        assert_eq!(begun(now, &later, 9), halted(number, 11, 2, Some(11)));
        assert_eq!(begun(now, &later, 2), halted(10, 0, 2, Some(11)));
        let last = join(&[&mov(1, 1), &record]);
        assert_eq!(begun(now, &last, 9), halted(number, 9, 1, Some(9)));
        let block = join(&[&mov(1, 1), &it(1, 2, 0), &NOP, &record, &NOP]);
        assert_eq!(begun(now, &block, 9), halted(number, 16, 3, Some(16)));
        // by a jump
        let behind = join(&[&b(14, 2), &mov(1, 1), &NOP, &record]);
        assert_eq!(begun(now, &behind, 9), halted(number, 19, 1, Some(19)));
    }
}

#[test]
fn astray() {
    // from the base over BX R14, with nothing waiting
    for (lr, place) in [
        (0x0FFF, None),
        (0x101D, None),
        (1, None),
        (0xFFFF_FFFF, None),
        (0x1007, None), // inside a record
        (0x1019, None),
        (0x100D, None),     // at the filler right behind BX, as if it went on
        (0x100F, None),     // inside it
        (0x1013, None),     // at the filler behind the filler
        (0x1005, Some(14)), // in the block
        (0x1009, Some(16)),
    ] {
        let now = machine(&[(14, lr)]);
        for budget in [5, 6, u32::MAX] {
            assert_eq!(begun(now, &sample(), budget), halted(8, 0, 5, place), "{lr:X}");
        }
        assert_eq!(begun(now, &sample(), 4), halted(10, 0, 4, Some(18)), "{lr:X}");
    }
    // a table branch by entry 0 to the filler right behind it, by 1 into it, and past it
    for (op, listing) in [TBB, TBH].map(|op| (op, join(&[&table(op, 3, 0), &filler(4), &NOP]))) {
        for (entry, wanted) in [
            (0, halted(8, 0, 1, None)),
            (1, halted(8, 0, 1, None)),
            (2, halted(0, 0, 2, Some(10))),
            (3, halted(0, 0, 1, Some(10))),
            (4, halted(8, 0, 1, None)),
        ] {
            let now = machine(&[(3, BASE)]);
            let (halt, _, _) = begun_in(&[entry, 0], now, &listing, 9);
            assert_eq!(halt, wanted, "{op} {entry}");
        }
    }
    // a filler first
    assert_eq!(begun(machine(&[]), &filler(2), 0), halted(8, 0, 0, None));
    assert_eq!(begun(machine(&[]), &join(&[&filler(2), &NOP]), 9), halted(8, 0, 0, None));
}

#[test]
fn refused_by_a_test_it_is_none() {
    let fresh = |now: Machine, listing: &[u8], base, memory: &mut [u8], memory_base| {
        let mut machine = now;
        let halt = begin(&mut machine, listing, base, memory, memory_base, 9);
        assert_eq!(machine, now);
        halt
    };
    let good = machine(&[]);
    for bad in [machine(&[(13, 2)]), machine(&[(15, 0x1001)]), waits(good, &[15])] {
        assert_eq!(fresh(bad, &NOP, CODE, &mut [], 0), halted(1, 0, 0, None));
        assert_eq!(fresh(bad, &[0x15, 2, 0x18], CODE, &mut [], 0), halted(1, 0, 0, None));
    }
    assert_eq!(fresh(good, &NOP, CODE, &mut [0; 2], 0xFFFF_FFFF), halted(1, 0, 0, None));
    assert_eq!(fresh(good, &NOP, CODE, &mut vec![0; 1_048_577], 0), halted(1, 0, 0, None));
    // though R15 is at a record
    for (listing, number, place) in refused_listings() {
        let wanted = halted(number, place, 0, None);
        assert_eq!(fresh(good, &listing, CODE, &mut [], 0), wanted, "{number}");
    }
    assert_eq!(fresh(good, &NOP, 0x1001, &mut [], 0), halted(1, 0, 0, None));
    let high = machine(&[(15, 0xFFFF_FFFE)]);
    assert_eq!(fresh(high, &NOP, 0xFFFF_FFFE, &mut [], 0), halted(1, 2, 0, None));
    // at the highest end
    let halt = begin(&mut machine(&[(15, 0xFFFF_FFFC)]), &NOP, 0xFFFF_FFFC, &mut [], 0, 9);
    assert_eq!(halt, halted(0, 0, 1, Some(2)));
}

#[test]
fn an_empty_listing() {
    assert_eq!(begun(machine(&[]), &[], 0), halted(0, 0, 0, Some(0)));
    assert_eq!(begun(machine(&[]), &[], 9), halted(0, 0, 0, Some(0)));
    assert_eq!(begun(waits(machine(&[]), &[0]), &[], 9), halted(8, 0, 0, Some(0)));
    for address in [0, 0x0FFE, 0x1002] {
        assert_eq!(begun(machine(&[(15, address)]), &[], 9), halted(8, 0, 0, None));
    }
}

#[test]
fn the_last_places_of_a_full_listing() {
    let nops = NOP.repeat(32_768);
    assert_eq!(begun(machine(&[]), &nops, 32_767), halted(10, 0, 32_767, Some(65_534)));
    assert_eq!(begun(machine(&[]), &nops, u32::MAX), halted(0, 0, 32_768, Some(65_536)));
    // addresses far above the places
    let hops = join(&[&b(14, 65_532), &filler(65_534)]).repeat(5_957);
    assert_eq!(begun(machine(&[]), &hops, 5_956), halted(10, 0, 5_956, Some(65_516)));
    assert_eq!(begun(machine(&[]), &hops, 5_957), halted(0, 0, 5_957, Some(65_527)));
}

#[test]
fn a_run_is_the_fresh_run() {
    for (address, _, waiting) in WALK {
        for budget in 0..9 {
            let now = waits(machine(&[(15, address), (14, 0x1015), (3, BASE)]), waiting);
            let (halt, after, left) = begun_in(&[7; 64], now, &sample(), budget);
            let (mut machine, mut memory) = (now, vec![7; 64]);
            let ran = run(&mut machine, &sample(), CODE, &mut memory, BASE, budget);
            assert_eq!((ran, machine, memory), (halt.ran, after, left), "{address:X}");
        }
    }
}
