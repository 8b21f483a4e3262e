//! Where a run with fillers begins.

use super::code::Code;
use crate::checks::listing::{end_of, spots, Spot};
use crate::image::Image;
use crate::prng::Prng;
use crate::table::FILLER;

#[derive(Clone, Copy, PartialEq, Eq)]
pub enum Start {
    AtBase,
    AtFiller,
    InFiller,
    BehindFiller,
    AtBranch,
    AtEnd,
}
use Start::*;

pub const STARTS: [(Start, &str); 6] = [
    (AtBase, "at the base"),
    (AtFiller, "at a filler"),
    (InFiller, "inside one"),
    (BehindFiller, "right behind one"),
    (AtBranch, "at the table branch"),
    (AtEnd, "at the end"),
];
const PC: usize = 15;

/// Mostly at the base; nothing waits.
pub fn start(prng: &mut Prng, code: &Code, base: u32, image: &mut Image) -> Start {
    let start = if prng.once_in(2) { AtBase } else { prng.pick(&STARTS).0 };
    let (start, at) = match place(prng, code, start) {
        Some(at) => (start, at),
        None => (AtBase, 0),
    };
    image.registers[PC] = base.wrapping_add(at as u32);
    start
}

/// How far from the base; None where the listing has no such place.
fn place(prng: &mut Prng, code: &Code, start: Start) -> Option<i64> {
    let (spots, end) = (spots(&code.records), end_of(&code.records));
    let past = |at: usize| spots.get(at + 1).map_or(end, |spot: &Spot| spot.at);
    let is_filler = |at: &usize| code.records[*at][0] == FILLER;
    let all = (0..spots.len()).filter(is_filler);
    let fillers: Vec<usize> = match start {
        InFiller => all.filter(|&at| past(at) - spots[at].at > 2).collect(),
        BehindFiller => all.filter(|&at| spots.get(at + 1).map_or(false, |s| s.lands)).collect(),
        _ => all.collect(),
    };
    let filler = (!fillers.is_empty()).then(|| prng.pick(&fillers));
    Some(match start {
        AtBase => 0,
        AtFiller => spots[filler?].at,
        InFiller => {
            let inside = (past(filler?) - spots[filler?].at) / 2 - 1;
            spots[filler?].at + 2 + 2 * i64::from(prng.below(inside as u32))
        }
        BehindFiller => past(filler?),
        AtBranch => spots[code.branch].at,
        AtEnd => end,
    })
}
