//! The sorts of records that order 1 of paper 02 tells apart by whether a filler may stand behind them.

use crate::prng::Prng;
use crate::random_record;
use crate::table::{FILLER, TABLE_BRANCH};

pub const NAMES: [&str; 17] = [
    "B",
    "BX",
    "TBB",
    "TBH",
    "filler",
    "B with a condition",
    "BL",
    "BLX",
    "CBZ",
    "CBNZ",
    "MOV to R15",
    "ADD to R15",
    "LDR to R15",
    "LDR to R15 by index",
    "LDM to R15",
    "IT",
    "another",
];
/// The sorts that a filler may stand behind, outside a block, are those before this one.
pub const REFUSED: usize = 5;
pub const SORT_OF_FILLER: usize = 4;
pub const IT: usize = 15;
const OTHER: usize = 16;
/// What can be the last record of a block: "IT, CBZ, CBNZ .. and B with its own condition (not AL) only
/// with no conditions waiting", and a filler is never in one.
pub const LAST_OF_BLOCK: [usize; 12] = [0, 1, 2, 3, 6, 7, 10, 11, 12, 13, 14, OTHER];
const AL: u8 = 14;

pub fn sort_of(record: &[u8]) -> usize {
    match *record {
        [0x11, 0, _, AL, ..] => 0,
        [0x12, 0, ..] => 1,
        [TABLE_BRANCH, op, ..] => 2 + usize::from(op & 1),
        [FILLER, ..] => SORT_OF_FILLER,
        [0x11, 0, ..] => 5,
        [0x11, ..] => 6,
        [0x12, ..] => 7,
        [0x13, op, ..] => 8 + usize::from(op & 1),
        [0x01, 10, _, 15, ..] => 10,
        [0x01, 0, _, 15, ..] => 11,
        [0x0D, 0, _, 15, ..] => 12,
        [0x0E, 0, _, 15, ..] => 13,
        [0x10, 0..=1, .., list] if list & 0x80 != 0 => 14,
        [0x14, ..] => IT,
        _ => OTHER,
    }
}

/// A record of the sort that is free of 2 to 4 where so many conditions wait, none or one.
pub fn record(prng: &mut Prng, sort: usize, waiting: usize) -> Vec<u8> {
    let (form, rn, rm) = (prng.pick(&[0, 2]), register(prng), register(prng));
    let condition = prng.below(14) as u8;
    match sort {
        0 => vec![0x11, 0, form, AL, 0, 0, 0, 0],
        1 => vec![0x12, 0, 0, prng.pick(&[rm, 13, 15])],
        2 | 3 => vec![TABLE_BRANCH, sort as u8 - 2, 2, prng.pick(&[rn, 15]), rm],
        SORT_OF_FILLER => filler(prng),
        5 => vec![0x11, 0, form, condition, 0, 0, 0, 0],
        6 => vec![0x11, 1, 2, AL, 0, 0, 0, 0],
        7 => vec![0x12, 1, 0, rm],
        8 | 9 => vec![0x13, sort as u8 - 8, 0, prng.below(8) as u8, 0],
        10 => vec![0x01, 10, form, 15, 0, rm, 0, 0],
        11 => vec![0x01, 0, form, 15, 15, rm, 0, 0],
        12 => vec![0x0D, 0, form, 15, rn, prng.below(3) as u8, 4, 0],
        13 => vec![0x0E, 0, form, 15, rn, rm, prng.below(4) as u8],
        14 => vec![0x10, prng.below(2) as u8, form, rn, 0, prng.byte(), 0x80],
        IT => vec![0x14, 0, condition, 1 + prng.below(4) as u8, 0],
        _ => other(prng, waiting),
    }
}

fn register(prng: &mut Prng) -> u8 {
    prng.pick(&[0, 1, 2, 3, 4, 5, 6, 7, 8, 9, 10, 11, 12, 14])
}

/// One that goes on to the next record, where any number of conditions may wait.
pub fn other(prng: &mut Prng, waiting: usize) -> Vec<u8> {
    loop {
        let record = random_record::allowed(prng, waiting);
        if sort_of(&record) == OTHER {
            return record;
        }
    }
}

/// Of few bytes, so that CBZ reaches past it; of the most; of any number.
pub fn filler(prng: &mut Prng) -> Vec<u8> {
    let small = 2 + 2 * prng.below(50) as u16;
    let any = (prng.word() as u16 & !1).max(2);
    let number = prng.pick(&[2, 4, small, small, small, any, 0xFFFE]);
    [&[FILLER][..], &number.to_le_bytes()].concat()
}
