//! Mistakes in a listing.

use super::listing::{end_of, lead, spots, Records, Spot, BRANCH, COMPARE_BRANCH, IF_THEN};
use crate::prng::Prng;
use crate::random_record;

const REACH: i64 = 1_048_576;
const FAR_REACH: i64 = 16_777_216;
/// MULS, IT, CBZ, B with its own condition; B, BL, BX, MOV and LDR to R15: each has wrong spots in
/// a block.
const SPOTTED: [&[u8]; 9] = [
    &[0x07, 0, 1, 1, 2, 1, 0],
    &[0x14, 0, 3, 2, 0],
    &[0x13, 1, 0, 4, 0],
    &[0x11, 0, 0, 5, 0, 0, 0, 0],
    &[0x11, 0, 2, 14, 0, 0, 0, 0],
    &[0x11, 1, 2, 14, 0, 0, 0, 0],
    &[0x12, 0, 0, 14],
    &[0x01, 10, 0, 15, 0, 14, 0, 0],
    &[0x0D, 0, 0, 15, 13, 2, 4, 0],
];

/// One mistake, where there is something to make it in.
pub fn make(prng: &mut Prng, records: &mut Records) {
    if records.is_empty() {
        return;
    }
    let at = prng.below(records.len() as u32) as usize;
    match prng.below(12) {
        0..=4 => target(prng, records),
        5 => spotted(prng, records),
        6 => open_block(prng, records),
        7 => records[at] = some_record(prng),
        8 => records.insert(at, some_record(prng)),
        9 => {
            records.remove(at);
        }
        10 => turn_length(&mut records[at]),
        _ => random_record::damage(prng, &mut records[at]),
    }
}

/// As it falls: many are restricted.
fn some_record(prng: &mut Prng) -> Vec<u8> {
    let mut record = random_record::record(prng);
    random_record::bind(&mut record);
    record
}

/// The other length: every later record moves by two machine bytes.
fn turn_length(record: &mut [u8]) {
    match record {
        [0x15, form] | [0x01..=0x13, _, form, ..] => *form ^= 2,
        _ => (),
    }
}

/// A record that does not fit everywhere in a block, in a block if there is one.
fn spotted(prng: &mut Prng, records: &mut Records) {
    let spots = spots(records);
    let inside: Vec<usize> = (0..spots.len()).filter(|&at| !spots[at].outside).collect();
    if let [_, ..] = inside[..] {
        records[prng.pick(&inside)] = prng.pick(&SPOTTED).to_vec();
    }
}

/// Cut off after one of the IT records, within its block or at its end; or one more at the end.
fn open_block(prng: &mut Prng, records: &mut Records) {
    let is_block = |at: &usize| matches!(records[*at][..], [IF_THEN, ..]);
    let blocks: Vec<usize> = (0..records.len()).filter(is_block).collect();
    if blocks.is_empty() || prng.once_in(3) {
        let count = 1 + prng.below(4) as u8;
        return records.push(vec![IF_THEN, 0, prng.below(15) as u8, count, 0]);
    }
    records.truncate(prng.pick(&blocks) + 1 + prng.below(5) as usize);
}

/// Another target for one of the direct branches.
fn target(prng: &mut Prng, records: &mut Records) {
    let is_branch = |at: &usize| matches!(records[*at][..], [BRANCH | COMPARE_BRANCH, ..]);
    let branches: Vec<usize> = (0..records.len()).filter(is_branch).collect();
    if branches.is_empty() {
        return;
    }
    let (spots, end) = (spots(records), end_of(records));
    let branch = prng.pick(&branches);
    let from = spots[branch].at;
    let target = some_target(prng, &spots, from, end);
    lead(&mut records[branch], from, target);
}

/// At records and at the second half of them, inside and outside blocks; at the end and beside it;
/// before the base; as far as a branch goes, and one further; at odd addresses.
fn some_target(prng: &mut Prng, spots: &[Spot], from: i64, end: i64) -> i64 {
    let spot = prng.pick(spots).at;
    let near = 2 * i64::from(prng.below(66));
    match prng.below(12) {
        0 => spot,
        1 => spot + 2,
        2 => prng.pick(&[end - 4, end - 2, end, end + 2, end + 4]),
        3 => prng.pick(&[-4, -2, 0]),
        4 => from + prng.pick(&[-2, 0, 2, 4]),
        5 => from + 4 + prng.pick(&[-REACH - 2, -REACH, REACH - 2, REACH]),
        6 => from + 4 + prng.pick(&[-FAR_REACH - 2, -FAR_REACH, FAR_REACH - 2, FAR_REACH]),
        7 => spot + 1,
        _ => from + 4 + near,
    }
}
