//! Order 1 of paper 02: where a filler may stand, and the addresses and landing places around it (S5, S13 to S16, S18, S19, S22, S23).

mod common;
use common::tables::*;
use common::*;
use second::check::check;
use second::judge::judge;
use second::program::program;
use second::run::run;

#[test]
fn what_may_stand_before_a_filler() {
    for (name, record, fits) in neighbours() {
        assert_eq!(fits, leaves_room(&record), "{name}");
        let length = record.len() as u32;
        for bytes in [2, 4, 65_534] {
            // at the base, and behind a NOP, with and without something behind
            let wanted = |place| if fits { (0, 0) } else { (4, place) };
            let filler = filler(bytes);
            assert_eq!(checked(&[&record, &filler]), wanted(length), "{name}");
            assert_eq!(checked(&[&record, &filler, &NOP]), wanted(length), "{name}");
            assert_eq!(checked(&[&NOP, &record, &filler]), wanted(length + 2), "{name}");
            // behind a filler all is the same
            assert_eq!(checked(&[&filler, &record, &filler]), wanted(length + 3), "{name}");
            // one filler more, and one that has a record between
            assert_eq!(checked(&[&record, &filler, &filler]), wanted(length), "{name}");
            let apart = checked(&[&record, &filler, &NOP, &filler]);
            assert_eq!(apart, if fits { (4, length + 5) } else { (4, length) }, "{name}");
        }
    }
}

#[test]
fn nothing_in_a_block_stands_before_a_filler() {
    let mut tried = 0;
    for (name, record, _) in neighbours() {
        if judge(&record, 1) != 0 {
            continue;
        }
        tried += 1;
        let length = record.len() as u32;
        for condition in CONDITIONS {
            // the block's last record, then the filler
            let last = [&it(condition, 1, 0)[..], &record, &filler(4), &NOP];
            assert_eq!(checked(&last), (4, 5 + length), "{name}");
            let last = [&it(condition, 4, 0)[..], &NOP, &NOP, &NOP, &record, &filler(4)];
            assert_eq!(checked(&last), (4, 11 + length), "{name}");
            // in the block still
            if judge(&record, 2) == 0 {
                let inside = [&it(condition, 2, 0)[..], &record, &filler(4)];
                assert_eq!(checked(&inside), (4, 5 + length), "{name}");
                let inside = [&it(condition, 2, 0)[..], &record, &filler(4), &NOP];
                assert_eq!(checked(&inside), (4, 5 + length), "{name}");
            }
        }
        // one that stands outside again; a branch to itself does not land in its block
        let outside = [&it(0, 1, 0)[..], &record, &bx(14), &filler(4), &NOP];
        let wanted = if record[0] == 0x11 { (9, 5) } else { (0, 0) };
        assert_eq!(checked(&outside), wanted, "{name}");
    }
    assert_eq!(tried, 24);
}

#[test]
fn a_filler_in_a_block_is_4_at_its_place() {
    for condition in CONDITIONS {
        for count in 1..=4 {
            // the block left open, 4 at the length, is not reached
            let block = it(condition, count, 0);
            assert_eq!(checked(&[&block, &filler(2)]), (4, 5));
            assert_eq!(checked(&[&bx(14), &block, &filler(2)]), (4, 9));
            assert_eq!(checked(&[&bx(14), &filler(2), &block, &filler(2), &filler(2)]), (4, 12));
            assert_eq!(checked(&[&block, &filler(2), &NOP, &NOP, &NOP, &NOP]), (4, 5));
        }
    }
    // with the end too high as well
    assert_eq!(check(&join(&[&it(0, 1, 0), &filler(2)]), 0xFFFF_FFFE), (4, 5));
}

#[test]
fn numbers_of_a_filler_in_the_check() {
    // 2 before 4, ill placed or not
    for number in [0, 1, 3, 65_535] {
        assert_eq!(checked(&[&filler(number)]), (2, 0));
        assert_eq!(checked(&[&NOP, &filler(number)]), (2, 2));
        assert_eq!(checked(&[&bx(14), &filler(number)]), (2, 4));
        assert_eq!(checked(&[&it(0, 1, 0), &filler(number)]), (2, 5));
    }
    assert_eq!(checked(&[&NOP, &[0x17]]), (2, 2));
    assert_eq!(checked(&[&NOP, &[0x17, 2]]), (2, 2));
    assert_eq!(checked(&[&it(0, 1, 0), &[0x17, 2]]), (2, 5));
    // the lowest place
    assert_eq!(checked(&[&NOP, &filler(2), &[0x18]]), (4, 2));
    assert_eq!(checked(&[&bx(14), &filler(2), &[0x18]]), (2, 7));
    assert_eq!(checked(&[&mov(13, 0), &filler(2)]), (3, 0));
    assert_eq!(checked(&[&NOP, &filler(2), &mov(13, 0)]), (4, 2));
    assert_eq!(checked(&[&bx(14), &filler(2), &mov(13, 0)]), (3, 7));
    assert_eq!(checked(&[&table(TBB, 13, 0), &filler(2)]), (3, 0));
    assert_eq!(checked(&[&it(0, 2, 0), &bx(14), &filler(2)]), (4, 5));
    // 4 before 9
    assert_eq!(checked(&[&b(14, 100), &NOP, &filler(2)]), (4, 10));
    // a run gives the check's
    let listing = join(&[&NOP, &filler(2)]);
    assert_eq!(run(&mut machine(&[]), &listing, CODE, &mut [], 0, 9), ran(4, 2, 0));
    assert_eq!(program(&listing), "check 4 at 2\n");
    assert_eq!(program(&filler(3)), "check 2 at 0\n");
}

#[test]
fn nothing_but_fillers_and_fillers_last() {
    assert_eq!(checked(&[&filler(2)]), (0, 0));
    assert_eq!(checked(&[&filler(65_534), &filler(2), &filler(400)]), (0, 0));
    assert_eq!(checked(&[&NOP, &bx(14), &filler(2)]), (0, 0));
    assert_eq!(checked(&[&filler(2), &NOP]), (0, 0));
    assert_eq!(checked(&[&filler(2), &NOP, &table(TBB, 0, 1), &filler(8), &filler(2)]), (0, 0));
}

#[test]
fn landing_places_around_a_filler() {
    // B 1000, filler 1002 to 1007, NOP 1008, end 100A; the target is 1004 + offset
    for (offset, lands) in [
        (-6, false),
        (-4, true),
        (-2, false),
        (0, false),
        (2, false),
        (4, true),
        (6, true),
        (8, false),
    ] {
        let wanted = if lands { (0, 0) } else { (9, 0) };
        assert_eq!(checked(&[&b(14, offset), &filler(6), &NOP]), wanted, "{offset}");
        // as three fillers
        let three = [&b(14, offset)[..], &filler(2), &filler(2), &filler(2), &NOP];
        assert_eq!(checked(&three), wanted, "{offset}");
    }
    // the end right behind a filler is one
    assert_eq!(checked(&[&b(14, 4), &filler(6)]), (0, 0));
    assert_eq!(checked(&[&b(14, 2), &filler(6)]), (9, 0));
    assert_eq!(checked(&[&b(14, 6), &filler(6)]), (9, 0));
    // from behind: B is at 1006
    for (offset, lands) in
        [(-10, false), (-8, false), (-6, false), (-4, true), (-2, true), (-12, false)]
    {
        let wanted = if lands { (0, 0) } else { (9, 3) };
        assert_eq!(checked(&[&filler(6), &b(14, offset)]), wanted, "{offset}");
    }
    // a filler first and NOP behind it, from B, B EQ and BL at 1004
    for (offset, lands) in [(-8, false), (-6, true), (-4, true)] {
        let wanted = if lands { (0, 0) } else { (9, 5) };
        for branch in [b(14, offset), b(0, offset), bl(offset)] {
            assert_eq!(checked(&[&filler(2), &NOP, &branch]), wanted, "{offset}");
        }
    }
    // CBZ 1000, BX 1002, filler 1004 to 1007, IT 1008, NOP 100A, NOP 100C, end 100E
    for (offset, lands) in
        [(0, false), (2, false), (4, true), (6, false), (8, true), (10, true), (12, false)]
    {
        for op in [0, 1] {
            let cbz = [0x13, op, 0, 0, offset];
            let listing = [&cbz[..], &bx(14), &filler(4), &it(0, 1, 0), &NOP, &NOP];
            assert_eq!(checked(&listing), if lands { (0, 0) } else { (9, 0) }, "{offset}");
        }
    }
    // the lowest place with 9
    assert_eq!(checked(&[&b(14, -4), &b(14, 0), &filler(4), &b(14, -6)]), (9, 8));
}

#[test]
fn kind_16_is_no_direct_branch() {
    for op in [TBB, TBH] {
        assert_eq!(checked(&[&table(op, 0, 1)]), (0, 0));
        assert_eq!(checked(&[&table(op, 15, 1), &filler(2)]), (0, 0));
        assert_eq!(checked(&[&table(op, 15, 1), &filler(65_534), &it(0, 1, 0), &NOP]), (0, 0));
    }
    // it takes 4 machine bytes, and is a landing place outside a block only
    assert_eq!(checked(&[&b(14, -2), &table(TBB, 0, 1)]), (0, 0));
    assert_eq!(checked(&[&b(14, 0), &table(TBB, 0, 1)]), (9, 0));
    assert_eq!(checked(&[&b(14, 2), &table(TBB, 0, 1)]), (0, 0));
    assert_eq!(checked(&[&b(14, 0), &it(0, 1, 0), &table(TBB, 0, 1)]), (9, 0));
}

#[test]
fn the_end_address_behind_fillers() {
    for (bytes, highest) in [(2, 0xFFFF_FFFC), (4, 0xFFFF_FFFA), (65_534, 0xFFFF_0000)] {
        let alone = filler(bytes);
        assert_eq!(check(&alone, highest), (0, 0));
        assert_eq!(check(&alone, highest + 1), (1, 0));
        assert_eq!(check(&alone, highest + 2), (1, 3));
        assert_eq!(check(&alone, 0xFFFF_FFFE), (1, 3));
        let between = join(&[&bx(14), &filler(bytes), &NOP]);
        assert_eq!(check(&between, highest - 4), (0, 0));
        assert_eq!(check(&between, highest - 2), (1, 9));
    }
    // 4 before 1 before 9
    assert_eq!(check(&join(&[&NOP, &filler(2)]), 0xFFFF_FFFE), (4, 2));
    assert_eq!(check(&join(&[&b(14, -2), &filler(2)]), 0xFFFF_FFFC), (1, 11));
    assert_eq!(check(&join(&[&b(14, -2), &filler(2)]), 0xFFFF_FFFA), (9, 0));
    assert_eq!(check(&join(&[&b(14, 0), &filler(2)]), 0xFFFF_FFFA), (0, 0));
    // a wrapped end would be low: 2^32 and 2^32 + 2
    assert_eq!(check(&filler(4), 0xFFFF_FFFC), (1, 3));
    assert_eq!(check(&filler(6), 0xFFFF_FFFC), (1, 3));
    // and a target that wraps meets none
    assert_eq!(check(&join(&[&b(14, 2), &filler(2)]), 0xFFFF_FFFA), (9, 0));
    assert_eq!(check(&join(&[&b(14, -8), &filler(65_534)]), 0), (9, 0));
}

#[test]
fn the_longest_fillers() {
    let most = filler(65_534).repeat(21_845);
    let span = 21_845 * 65_534;
    assert_eq!((most.len(), span), (65_535, 1_431_590_230));
    let start = std::time::Instant::now();
    assert_eq!(check(&most, 0), (0, 0));
    assert_eq!(check(&most, 0xFFFF_FFFE - span), (0, 0));
    assert_eq!(check(&most, 0xFFFF_FFFE - span + 2), (1, 65_535));
    assert_eq!(check(&most, 0xFFFF_FFFE), (1, 65_535));
    assert_eq!(check(&join(&[&most, &[0x17]]), 0), (2, 65_535));
    assert_eq!(check(&join(&[&most, &[0x17, 2]]), 0), (1, 0));
    assert!(start.elapsed().as_secs_f64() < 0.5);
    // the run at and around that end
    let number =
        |address, budget| run(&mut machine(&[(15, address)]), &most, 2, &mut [], 0, budget);
    assert_eq!(number(2 + span, 0), ran(0, 0, 0));
    for address in [0, 2, 4, 0x1000, 65_536, 65_538, span, 4 + span, 0xFFFF_FFFE] {
        assert_eq!(number(address, 0), ran(8, 0, 0), "{address:X}");
        assert_eq!(number(address, 7), ran(8, 0, 0), "{address:X}");
    }
}

#[test]
fn a_full_listing_of_branches_and_fillers_is_checked_at_once() {
    // 5,957 times B to the next B over a filler of 65,534; the last goes to the end
    let listing = join(&[&b(14, 65_532), &filler(65_534)]).repeat(5_957);
    assert_eq!(listing.len(), 65_527);
    let mut strays = listing.clone();
    strays.extend(b(14, -6));
    let start = std::time::Instant::now();
    assert_eq!(check(&listing, 0x1000), (0, 0));
    assert_eq!(check(&strays, 0x1000), (9, 65_527));
    assert!(start.elapsed().as_secs_f64() < 0.5);
    let mut machine = machine(&[]);
    let ended = run(&mut machine, &listing, 0x1000, &mut [], 0, u32::MAX);
    assert_eq!(ended, ran(0, 0, 5_957));
    assert_eq!(machine.registers[15], 0x1000 + 5_957 * 65_536);
}

#[test]
fn the_whole_reach_of_b_over_fillers() {
    // 256 * 65,534 + 512 = 2^24
    let pool = join(&[&filler(65_534).repeat(256), &filler(512)]);
    for base in [0, 0x1000, 0xFEFF_FFFA] {
        let forward = |offset| check(&join(&[&b(14, offset), &pool, &NOP]), base);
        assert_eq!(forward(16_777_214), (0, 0));
        assert_eq!(forward(16_777_212), (9, 0));
        assert_eq!(forward(16_777_216), (2, 0));
    }
    // NOP 1000, BX 1002, pool from 1004, B at 1004 + 2^24 - less: it goes to 1008 - less
    for (less, lands) in [(0, false), (4, false), (6, true), (8, true), (10, false)] {
        let pool = join(&[&filler(65_534).repeat(256), &filler(512 - less)]);
        let back = |offset| check(&join(&[&NOP, &bx(14), &pool, &b(14, offset)]), 0x1000);
        let place = 6 + pool.len() as u32;
        assert_eq!(back(-16_777_216), if lands { (0, 0) } else { (9, place) }, "{less}");
        assert_eq!(back(-16_777_218), (2, place));
    }
}
