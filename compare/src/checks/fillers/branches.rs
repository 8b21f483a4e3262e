//! Direct branches to fillers, into them, right behind them and over them.

use super::sorts::{self, other};
use super::{filler, gap};
use crate::checks::listing::{end_of, lead, retarget, spots, Records};
use crate::prng::Prng;
use crate::table::FILLER;

/// B, B with a condition, BL, CBZ and CBNZ.
const SORTS: [usize; 5] = [0, 5, 6, 8, 9];
const FIRST_SHORT: usize = 8;

/// A branch before or behind fillers, which goes to some place about them.
pub fn put(prng: &mut Prng, records: &mut Records) {
    let sort = prng.pick(&SORTS);
    let back = sort < FIRST_SHORT && prng.once_in(3);
    let mut some = between(prng, sort);
    if back {
        some.push(other(prng, 0));
    }
    let index = if back { some.len() } else { 0 };
    some.insert(index, sorts::record(prng, sort, 0));
    let at = if prng.once_in(3) { records.len() } else { gap(prng, records) };
    records.splice(at..at, some);
    retarget(prng, records);
    aim(prng, records, at + index, back);
}

/// Records up to and with fillers: "after an unconditional B outside a block, after BX outside a block,
/// after kind 16 outside a block, after another filler".
fn between(prng: &mut Prng, sort: usize) -> Records {
    let (mut some, leaves) = (Records::new(), prng.below(4) as usize);
    for _ in 0..prng.below(3) {
        some.push(other(prng, 0));
    }
    some.push(sorts::record(prng, leaves, 0));
    for _ in 0..prng.pick(&[1, 1, 2, 3]) {
        some.push(filler_for(prng, sort));
    }
    some
}

/// CBZ and CBNZ reach over few bytes.
fn filler_for(prng: &mut Prng, sort: usize) -> Vec<u8> {
    if sort < FIRST_SHORT {
        return filler(prng);
    }
    vec![FILLER, prng.pick(&[2, 4, 6, 16, 30, 60]), 0]
}

/// The next fillers after the branch or the last before it: to one, into one, right behind one.
fn aim(prng: &mut Prng, records: &mut Records, branch: usize, back: bool) {
    let (spots, end) = (spots(records), end_of(records));
    let is_filler = |&at: &usize| records[at][0] == FILLER;
    let run: Vec<usize> = if back {
        let last = (0..branch).rev().find(is_filler).unwrap_or(0);
        (0..=last).rev().take_while(is_filler).collect()
    } else {
        let first = (branch..records.len()).find(is_filler).unwrap_or(records.len());
        (first..records.len()).take_while(is_filler).collect()
    };
    let at = match run[..] {
        [] => return,
        _ => prng.pick(&run),
    };
    let past = |at: usize| spots.get(at + 1).map_or(end, |spot| spot.at);
    let inside = (past(at) - spots[at].at) / 2 - 1;
    let some = 2 + 2 * i64::from(prng.below(inside.max(1) as u32));
    let highest = run.iter().copied().max().unwrap_or(at);
    let target = match prng.below(8) {
        0 | 1 => spots[at].at,
        2 | 3 if inside > 0 => spots[at].at + some,
        _ => past(highest),
    };
    lead(&mut records[branch], spots[branch].at, target);
}
