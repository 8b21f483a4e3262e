//! Listings with the fillers and table branches of order 1 of paper 02.

mod branches;
mod fault;
mod fixed;
mod led;
mod sorts;
pub mod tally;

use super::listing::{end_of, retarget, some, spots, Records, IF_THEN};
use super::{base, Comparison, BASE};
use crate::prng::Prng;
use crate::{hex, random_record, Outcome};
use sorts::{filler, other};

const LISTINGS: usize = 200_000;
const AL: u8 = 14;

pub fn listings(comparison: &mut Comparison, prng: &mut Prng) -> Outcome {
    fixed::many(comparison)?;
    fixed::reaches(comparison)?;
    for _ in 0..LISTINGS {
        random(comparison, prng)?;
    }
    Ok(())
}

/// A listing that is accepted; then the same with a mistake or none, elsewhere at times.
fn random(comparison: &mut Comparison, prng: &mut Prng) -> Outcome {
    let count = prng.pick(&[0, 1, 2, 4, 8, 16]);
    let mut records = accepted(prng, count);
    if comparison.put(&records.concat(), BASE)? != 0 {
        let bytes = hex::line(&records.concat());
        return Err(format!("a listing is refused that was made to be accepted: {bytes}"));
    }
    fault::make(prng, &mut records);
    let mut bytes = records.concat();
    match prng.below(24) {
        0 => random_record::damage(prng, &mut bytes),
        1 => bytes.truncate(bytes.len().saturating_sub(1 + prng.below(2) as usize)),
        _ => (),
    }
    comparison.put(&bytes, base::base(prng, end_of(&records)))?;
    Ok(())
}

/// At least so many records, with fillers wherever they may stand.
fn accepted(prng: &mut Prng, count: usize) -> Records {
    let mut records = Records::new();
    if prng.once_in(4) {
        fillers(prng, &mut records);
    }
    while records.len() < count {
        match prng.below(6) {
            0 | 1 => leave(prng, &mut records),
            2 => block(prng, &mut records),
            _ => some(prng, &mut records),
        }
    }
    if prng.once_in(3) {
        leave(prng, &mut records);
    }
    retarget(prng, &mut records);
    records
}

fn fillers(prng: &mut Prng, records: &mut Records) {
    for _ in 0..prng.pick(&[1, 1, 1, 2, 3]) {
        records.push(filler(prng));
    }
}

/// A record that a filler may stand behind, and mostly fillers behind it.
fn leave(prng: &mut Prng, records: &mut Records) {
    let sort = prng.below(4) as usize;
    records.push(sorts::record(prng, sort, 0));
    if !prng.once_in(4) {
        fillers(prng, records);
    }
}

/// "last in its block".
fn block(prng: &mut Prng, records: &mut Records) {
    let count = 1 + prng.below(4) as u8;
    open(prng, records, count);
    let sort = prng.pick(&[2, 3]);
    records.push(sorts::record(prng, sort, 1));
}

/// An IT record and all of its block but the last.
fn open(prng: &mut Prng, records: &mut Records, count: u8) {
    let any = prng.below(14) as u8;
    let condition = prng.pick(&[AL, any]);
    let elses = if condition == AL { 0 } else { prng.below(1 << (count - 1)) as u8 };
    records.push(vec![IF_THEN, 0, condition, count, elses]);
    for waiting in (2..=count).rev() {
        records.push(other(prng, waiting.into()));
    }
}

/// An index at which records can be put in so that all others stay where they may stand: outside
/// blocks and not before a filler.
fn gap(prng: &mut Prng, records: &Records) -> usize {
    let spots = spots(records);
    let lands = (0..spots.len()).filter(|&at| spots[at].lands);
    let gaps: Vec<usize> = lands.chain([records.len()]).collect();
    prng.pick(&gaps)
}
