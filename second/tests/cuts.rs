//! Order 6 of paper 02: a run cut into resumes is the whole run, and wherever it is cut the stored
//! place is the one that a walk along the records finds.

mod common;
use common::places::*;
use common::tables::*;
use common::*;
use second::check::check;
use second::machine::Machine;
use second::run::{begin, resume, Halted};

/// The parts as one run: the counts add up.
fn joined(first: Halted, then: Halted) -> Halted {
    let mut whole = then;
    whole.ran.count += first.ran.count;
    whole
}

/// MOV R0,3; a loop of TBB over its table, STR, SUBS and a branch back in a block; MOV, LDR, BX over a
/// filler, NOP.
fn routine() -> Vec<u8> {
    join(&[
        &mov(0, 3),
        &table(TBB, 15, 0),
        &filler(4),
        &single(5, 0, 13, 1, -4),
        &[0x02, 2, 1, 0, 0, 1, 0, 0, 0],
        &it(5, 1, 0),
        &b(14, -18),
        &mov(1, 7),
        &single(0, 2, 13, 0, 0),
        &bx(14),
        &filler(4),
        &NOP,
    ])
}

/// The routine's places step by step.
fn way() -> Vec<u32> {
    [&[0][..], &[9, 17, 25, 34, 39].repeat(4), &[47, 56, 64, 71, 73]].concat()
}

/// Code and memory have the same addresses; the table's entries are 2.
fn start() -> (Machine, Vec<u8>) {
    (machine(&[(13, 0x1040), (14, 0x101D)]), vec![2; 64])
}

fn go((now, memory): &(Machine, Vec<u8>), budget: u32) -> Left {
    let (mut machine, mut memory) = (*now, memory.clone());
    let halt = begin(&mut machine, &routine(), CODE, &mut memory, CODE, budget);
    (halt, machine, memory)
}

fn go_on((halt, now, memory): &Left, budget: u32) -> Left {
    let (mut machine, mut memory) = (*now, memory.clone());
    let then = resume(&mut machine, &routine(), CODE, &mut memory, CODE, budget, halt.stored);
    (joined(*halt, then), machine, memory)
}

#[test]
fn the_routine_whole() {
    let (halt, after, memory) = go(&start(), 100);
    assert_eq!(halt, halted(0, 0, 25, Some(73)));
    assert_eq!((after.registers[0], after.registers[1], after.registers[2]), (0xFFFF_FFFF, 7, 0));
    assert_eq!((after.registers[13], after.registers[15]), (0x1030, 0x101E));
    assert_eq!(memory[48..], [0, 0, 0, 0, 1, 0, 0, 0, 2, 0, 0, 0, 3, 0, 0, 0]);
    assert_eq!(way().len(), 26);
}

#[test]
fn cut_once_at_every_count() {
    let whole = go(&start(), 100);
    for (cut, place) in (0..).zip(way()) {
        let first = go(&start(), cut);
        let number = if cut == 25 { 0 } else { 10 };
        assert_eq!(first.0, halted(number, 0, cut, Some(place)));
        assert_eq!(go_on(&first, 100), whole, "{cut}");
        assert_eq!(go_on(&first, 25 - cut), whole, "{cut}");
    }
}

#[test]
fn cut_twice_at_every_two_counts() {
    let whole = go(&start(), 100);
    for cut in 0..=25 {
        for more in 0..=25 - cut {
            let second = go_on(&go(&start(), cut), more);
            assert_eq!(second, go(&start(), cut + more), "{cut} {more}");
            assert_eq!(go_on(&second, 100), whole, "{cut} {more}");
        }
    }
}

#[test]
fn cut_behind_each_step() {
    let mut now = go(&start(), 0);
    for (count, place) in (0..25).zip(way()) {
        assert_eq!(now.0, halted(10, 0, count, Some(place)));
        now = go_on(&go_on(&now, 0), 1);
    }
    assert_eq!(now, go(&start(), 100));
}

/// The listing bytes and the machine bytes of the record that begins the bytes, by paper 01's table
/// and order 1.
fn lengths(record: &[u8]) -> (usize, u32) {
    let body = match record[0] {
        0x15 => 1,
        0x17 => 2,
        0x12 => 3,
        0x06 | 0x13 | 0x14 | 0x16 => 4,
        0x03 | 0x05 | 0x09 | 0x0C => 5,
        0x04 | 0x07 | 0x08 | 0x0B | 0x0E | 0x10 => 6,
        0x01 | 0x0A | 0x0D | 0x11 => 7,
        0x02 | 0x0F => 8,
        kind => panic!("{kind:02X}"),
    };
    let form = match record[0] {
        0x17 => return (3, u32::from(record[1]) + 256 * u32::from(record[2])),
        0x14 | 0x15 => record[1],
        _ => record[2],
    };
    (1 + body, if form & 2 == 2 { 4 } else { 2 })
}

/// "the one that the walk would find": record by record from the start of an accepted listing.
fn walked(listing: &[u8], base: u32, wanted: u32) -> Option<u32> {
    let (mut place, mut address) = (0, base);
    while place < listing.len() {
        if address == wanted {
            return if listing[place] == 0x17 { None } else { Some(place as u32) };
        }
        let (bytes, machine_bytes) = lengths(&listing[place..]);
        place += bytes;
        address += machine_bytes;
    }
    if address == wanted {
        Some(place as u32)
    } else {
        None
    }
}

#[test]
fn the_walk_is_that_of_the_table() {
    for (address, place, _) in WALK {
        assert_eq!(walked(&sample(), CODE, address), place, "{address:X}");
    }
    assert_eq!(walked(&[], CODE, CODE), Some(0));
}

/// Records that go here and there, many of them in blocks and before fillers.
fn some_listing(random: &mut Random) -> Vec<u8> {
    let mut listing = if random.below(12) == 0 { filler(2) } else { Vec::new() };
    for _ in 0..random.below(9) {
        let register = random.below(8) as u8;
        let record = match random.below(16) {
            0 | 1 => b(random.pick(&[14, 14, 0, 1, 4]), 2 * random.below(14) as i32 - 18),
            2 => vec![0x13, random.below(2) as u8, 0, register, 2 * random.below(6) as u8],
            3 | 4 => it(random.pick(&[0, 1, 5, 14]), 1 + random.below(3) as u8, 0),
            5 => vec![0x12, random.below(4) as u8 / 3, 0, register],
            6 => table(random.below(2) as u8, random.pick(&[register, 15]), 7),
            7 => vec![0x01, random.pick(&[0, 10]), 0, 15, 0, register, 0, 0],
            8 => vec![0x01, 0, 2, 15, 15, 7, 0, 0],
            9 => single(0, random.pick(&[15, register]), 3, random.pick(&[0, 2]), 4),
            10 => multiple(0, 3, 1, random.pick(&[0x8001, 6])),
            11 => single(random.pick(&[5, 6, 7]), register, 3, 0, random.pick(&[0, 8, 60])),
            12 => some_record(random),
            13 => vec![0x02, random.pick(&[0, 2]), 1, register, register, 2, 0, 0, 0],
            _ => vec![0x15, random.pick(&[0, 2])],
        };
        let room = leaves_room(&record) && random.below(2) == 0;
        listing.extend(record);
        if room {
            listing.extend(filler(random.pick(&[2, 2, 4, 8])));
        }
    }
    listing
}

/// Registers that are mostly odd addresses of the listing, R7 small; at the base or anywhere.
fn some_start(random: &mut Random) -> Machine {
    let mut machine = some_machine(random);
    for register in &mut machine.registers[..7] {
        if random.below(4) != 0 {
            *register = (BASE + random.below(36) as u32) | 1;
        }
    }
    machine.registers[3] = BASE + random.below(60) as u32;
    machine.registers[7] = random.below(8) as u32;
    machine.registers[13] = BASE + 32;
    machine.registers[15] = BASE;
    if random.below(4) == 0 {
        machine.registers[15] += 2 * random.below(16) as u32;
    } else {
        machine.waiting = waiting(&[]);
    }
    machine
}

#[test]
fn any_run_cut_anywhere() {
    const MOST: u32 = 20;
    let mut random = Random(6_061);
    let mut seen = [[0; 3]; 11];
    for _ in 0..200_000 {
        let listing = some_listing(&mut random);
        let now = some_start(&mut random);
        if check(&listing, BASE).0 != 0 || !now.good() {
            continue;
        }
        let memory: Vec<u8> = (0..64)
            .map(|at| if at % 4 == 0 { 2 * random.below(16) as u8 + 1 } else { 0 })
            .collect();
        let fresh = |budget| {
            let (mut machine, mut memory) = (now, memory.clone());
            let halt = begin(&mut machine, &listing, BASE, &mut memory, BASE, budget);
            (halt, machine, memory)
        };
        let again = |left: &Left, budget, stored| {
            let (halt, mut machine, mut memory) = left.clone();
            let then = resume(&mut machine, &listing, BASE, &mut memory, BASE, budget, stored);
            (joined(halt, then), machine, memory)
        };
        let whole = fresh(MOST);
        // one more than the whole's count, for a step that is refused
        for cut in 0..=MOST.min(whole.0.ran.count + 1) {
            let part = fresh(cut);
            let (left, stored) = (MOST - part.0.ran.count, part.0.stored);
            let place = walked(&listing, BASE, part.1.registers[15]);
            assert_eq!(stored, place, "{cut} {listing:02X?} {now:?}");
            // on to the whole; an end other than 10 is given again
            assert_eq!(again(&part, left, stored), whole, "{cut} {listing:02X?} {now:?}");
            let wrong = random.pick(&[None, Some(0), Some(2), Some(listing.len() as u32)]);
            if wrong != place {
                let refused = (halted(1, 0, part.0.ran.count, wrong), part.1, part.2.clone());
                assert_eq!(again(&part, left, wrong), refused, "{listing:02X?} {now:?}");
            }
        }
        let sort = match whole.0.stored {
            None => 0,
            Some(place) if place == listing.len() as u32 => 1,
            Some(_) => 2,
        };
        seen[whole.0.ran.number as usize][sort] += 1;
    }
    for (number, sort) in [(0, 1), (5, 2), (6, 2), (7, 2), (8, 0), (8, 1), (8, 2), (10, 2)] {
        assert!(seen[number][sort] > 300, "{number} {sort} {seen:?}");
    }
}
