//! Places to resume with, right and wrong.

use crate::prng::Prng;
use crate::question::resume::NONE;
use crate::table::FILLER;
use crate::walk::Item;

pub const SORTS: [&str; 10] = [
    "the walk's", "another record's", "inside a record", "the length", "one more", "65536", "0",
    "a filler's", "4294967294", "none",
];
/// 65536 as the length of a listing at its limit takes long.
const FEWEST: u64 = 3;

/// How often a sort is to be the place of R15, where it can be.
pub fn agreeing(sort: usize, few: u64) -> Option<u64> {
    match sort {
        0 | 3 | 6 | 9 => Some(few),
        5 => Some(FEWEST),
        _ => None,
    }
}

/// One of each sort that a listing of so many bytes has, where the walk finds this.
pub fn all(prng: &mut Prng, items: &[Item], length: usize, walked: u32) -> Vec<(usize, u32)> {
    let (mut others, mut inside, mut fillers) = (Vec::new(), Vec::new(), Vec::new());
    for item in items {
        let (place, past) = (item.place as u32, (item.place + item.record.len()) as u32);
        inside.push(place + 1 + prng.below(past - place - 1));
        match item.record[0] {
            FILLER => fillers.push(place),
            _ if place != walked => others.push(place),
            _ => (),
        }
    }
    let next = others.iter().position(|&place| place > walked).unwrap_or(others.len());
    let near = &others[next.saturating_sub(1)..(next + 1).min(others.len())];
    let other = if prng.once_in(2) { near } else { &others };
    let mut one = |from: &[u32]| (!from.is_empty()).then(|| prng.pick(from));
    let length = length as u32;
    let all = [
        Some(walked),
        one(other),
        one(&inside),
        Some(length),
        Some(length + 1),
        Some(65_536),
        Some(0),
        one(&fillers),
        Some(NONE - 1),
        Some(NONE),
    ];
    (0..).zip(all).filter_map(|(sort, place)| Some((sort, place?))).collect()
}
