//! Listings that are accepted, a record each, so that mistakes can be made record by record.

use crate::prng::Prng;
use crate::table::FILLER;
use crate::{random_record, table};

pub type Records = Vec<Vec<u8>>;

pub const BRANCH: u8 = 0x11;
pub const COMPARE_BRANCH: u8 = 0x13;
pub const IF_THEN: u8 = 0x14;
const AL: u8 = 14;
/// In 2 machine bytes, as CBZ is, and as long as that in the listing.
const CLZ: [u8; 5] = [0x06, 0, 0, 1, 2];
const NOP: [u8; 2] = [0x15, 0];

/// Where a record stands, from the listing's base, whether it is outside all blocks, and whether it is
/// a landing place, which a filler is not.
#[derive(Clone, Copy)]
pub struct Spot {
    pub at: i64,
    pub outside: bool,
    pub lands: bool,
}

/// Each record's machine bytes by its form, or a filler's number; any bytes may come here, also those
/// that are no record.
fn machine_bytes(record: &[u8]) -> i64 {
    if let [FILLER, a, b] = *record {
        return i64::from(u16::from_le_bytes([a, b]));
    }
    let whole = record.len() > 2 || record.first() == Some(&0x15) && record.len() == 2;
    if whole && table::form_of(record) & 2 == 2 {
        4
    } else {
        2
    }
}

/// "An IT record's block is the next count records."
pub fn spots(records: &[Vec<u8>]) -> Vec<Spot> {
    let (mut at, mut inside) = (0, 0);
    let mut spots = Vec::with_capacity(records.len());
    for record in records {
        let outside = inside == 0;
        spots.push(Spot { at, outside, lands: outside && record.first() != Some(&FILLER) });
        inside = match record[..] {
            [IF_THEN, _, _, count, _] if inside == 0 => count,
            _ => inside.saturating_sub(1),
        };
        at += machine_bytes(record);
    }
    spots
}

/// The end address less the base.
pub fn end_of(records: &[Vec<u8>]) -> i64 {
    records.iter().map(|record| machine_bytes(record)).sum()
}

/// At least so many records, with whole blocks and with branches to landing places.
pub fn accepted(prng: &mut Prng, count: usize) -> Records {
    let mut records = Records::new();
    while records.len() < count {
        some(prng, &mut records);
    }
    retarget(prng, &mut records);
    records
}

/// A record outside blocks, or a block.
pub fn some(prng: &mut Prng, records: &mut Records) {
    match prng.below(8) {
        0 | 1 => block(prng, records),
        2 | 3 => records.push(branch(prng)),
        4 => records.push(vec![0x15, prng.pick(&[0, 2])]),
        _ => {
            let record = random_record::allowed(prng, 0);
            // it would open a block, which is for `block` to do
            if record[0] != IF_THEN {
                records.push(record);
            }
        }
    }
}

fn branch(prng: &mut Prng) -> Vec<u8> {
    let (condition, form) = (prng.below(15) as u8, prng.pick(&[0, 2]));
    match prng.below(4) {
        0 => vec![BRANCH, 0, form, condition, 0, 0, 0, 0],
        1 => vec![BRANCH, 1, 2, AL, 0, 0, 0, 0],
        op => vec![COMPARE_BRANCH, (op & 1) as u8, 0, prng.below(8) as u8, 0],
    }
}

fn block(prng: &mut Prng, records: &mut Records) {
    let (condition, count) = (prng.below(15) as u8, 1 + prng.below(4) as u8);
    let elses = if condition == AL { 0 } else { prng.below(1 << (count - 1)) as u8 };
    records.push(vec![IF_THEN, 0, condition, count, elses]);
    for waiting in (1..=count).rev() {
        let last = waiting == 1 && prng.once_in(3);
        let branch = vec![BRANCH, prng.below(2) as u8, 2, AL, 0, 0, 0, 0];
        records.push(if last { branch } else { random_record::allowed(prng, waiting.into()) });
    }
}

/// Adds records until the listing, of an even number of bytes less or of at least 5, is so long.
pub fn fill_up(records: &mut Records, bytes: usize) {
    let mut length: usize = records.iter().map(Vec::len).sum();
    while length < bytes {
        let record = if (bytes - length) % 2 == 1 { &CLZ[..] } else { &NOP };
        records.push(record.to_vec());
        length += record.len();
    }
}

/// Lets every direct branch go to some landing place. A CBZ that has none within reach makes room.
pub fn retarget(prng: &mut Prng, records: &mut Records) {
    let spots = spots(records);
    let mut landings: Vec<i64> =
        spots.iter().filter(|spot| spot.lands).map(|spot| spot.at).collect();
    landings.push(end_of(records));
    for (record, spot) in records.iter_mut().zip(&spots) {
        let (back, on) = match reach(record) {
            Some(reach) => reach,
            None => continue,
        };
        let first = landings.partition_point(|&at| at < spot.at + 4 + back);
        let past = landings.partition_point(|&at| at <= spot.at + 4 + on);
        match &landings[first..past] {
            [] => *record = CLZ.to_vec(),
            [.., last] if prng.once_in(4) => lead(record, spot.at, *last),
            near => lead(record, spot.at, prng.pick(near)),
        }
    }
}

/// The lowest and the highest offset of a direct branch: "B with AL and BL -16777216 to 16777214, other
/// B -1048576 to 1048574"; "CBZ, CBNZ; .. offset 0 to 126".
pub fn reach(record: &[u8]) -> Option<(i64, i64)> {
    match record {
        [BRANCH, _, _, AL, ..] => Some((-16_777_216, 16_777_214)),
        [BRANCH, ..] => Some((-1_048_576, 1_048_574)),
        [COMPARE_BRANCH, ..] => Some((0, 126)),
        _ => None,
    }
}

/// Lets a branch at an address go to a target, as far as its offset can say that.
pub fn lead(record: &mut [u8], at: i64, target: i64) {
    let offset = target - (at + 4);
    match record {
        [BRANCH, _, _, _, place @ ..] if place.len() == 4 => {
            place.copy_from_slice(&(offset as i32).to_le_bytes());
        }
        [COMPARE_BRANCH, _, _, _, place] => *place = offset as u8,
        _ => (),
    }
}
