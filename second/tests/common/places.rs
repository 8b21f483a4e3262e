//! What the tests of order 6 of paper 02 share: runs in few words, and a listing with its places.

use super::tables::*;
use super::*;
use second::machine::Machine;
use second::run::{begin, resume, Halted};

/// Both ends of a run: the halted one, and the machine and memory it left.
pub type Left = (Halted, Machine, Vec<u8>);

pub fn halted(number: u32, place: u32, count: u32, stored: Option<u32>) -> Halted {
    Halted { ran: ran(number, place, count), stored }
}

/// A fresh run at CODE with memory at BASE.
pub fn begun_in(memory: &[u8], now: Machine, listing: &[u8], budget: u32) -> Left {
    let (mut machine, mut memory) = (now, memory.to_vec());
    let halted = begin(&mut machine, listing, CODE, &mut memory, BASE, budget);
    (halted, machine, memory)
}

/// With 64 zero bytes of memory. Where no step was done, nothing may change.
pub fn begun(now: Machine, listing: &[u8], budget: u32) -> Halted {
    let (halted, machine, memory) = begun_in(&[0; 64], now, listing, budget);
    assert!(halted.ran.count > 0 || (machine, memory) == (now, vec![0; 64]));
    halted
}

/// A resume at CODE with memory at BASE.
pub fn resumed_in(
    memory: &[u8],
    now: Machine,
    listing: &[u8],
    stored: Option<u32>,
    budget: u32,
) -> Left {
    let (mut machine, mut memory) = (now, memory.to_vec());
    let halted = resume(&mut machine, listing, CODE, &mut memory, BASE, budget, stored);
    (halted, machine, memory)
}

/// With 64 zero bytes of memory. Where no step was done, nothing may change.
pub fn resumed(now: Machine, listing: &[u8], stored: Option<u32>, budget: u32) -> Halted {
    let (halted, machine, memory) = resumed_in(&[0; 64], now, listing, stored, budget);
    assert!(halted.ran.count > 0 || (machine, memory) == (now, vec![0; 64]));
    halted
}

/// A listing of 38 bytes for 26 machine bytes, with a block and two fillers; it ends with 0 from its
/// base when R14 is 0x1015 and R3 is BASE. `WALK` has its places.
pub fn sample() -> Vec<u8> {
    join(&[
        &mov(0, 1),
        &it(1, 2, 0),
        &[0x15, 2],
        &NOP,
        &bx(14),
        &filler(6),
        &filler(2),
        &single(0, 2, 3, 0, 0),
        &[0x15, 2],
    ])
}

pub const LENGTH: u32 = 38;

/// Each address around the sample: the walk's place, and the conditions that the layout has waiting.
pub const WALK: [(u32, Option<u32>, &[u8]); 17] = [
    (0x0FFC, None, &[]),
    (0x0FFE, None, &[]),
    (0x1000, Some(0), &[]),
    (0x1002, Some(9), &[]),
    (0x1004, Some(14), &[1, 1]),
    (0x1006, None, &[]), // inside a record
    (0x1008, Some(16), &[1]),
    (0x100A, Some(18), &[]),
    (0x100C, None, &[]), // a filler
    (0x100E, None, &[]), // inside it
    (0x1010, None, &[]),
    (0x1012, None, &[]), // another filler
    (0x1014, Some(28), &[]),
    (0x1016, Some(36), &[]),
    (0x1018, None, &[]), // inside a record
    (0x101A, Some(LENGTH), &[]),
    (0x101C, None, &[]),
];

/// Listings that the check refuses with each of its numbers, at base CODE, with number and place.
/// Each begins with a NOP, but the one that is too long.
pub fn refused_listings() -> Vec<(Vec<u8>, u32, u32)> {
    vec![
        (NOP.repeat(32_769), 1, 0),
        (join(&[&NOP, &[0x18]]), 2, 2),
        (join(&[&NOP, &NOP, &mov(13, 0)]), 3, 4),
        (join(&[&NOP, &filler(2)]), 4, 2),
        (join(&[&NOP, &it(0, 2, 0), &NOP]), 4, 9),
        (join(&[&NOP, &b(14, 2)]), 9, 2),
    ]
}
