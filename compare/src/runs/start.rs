//! Where a run begins, and with what waiting.

use super::scene::Scene;
use crate::checks::listing::{end_of, spots};
use crate::prng::Prng;
use crate::walk::after;

#[derive(Clone, Copy, PartialEq, Eq)]
pub enum Start {
    AtBase,
    Outside,
    OutsideWaiting,
    Inside,
    InsideNone,
    InsideOther,
    Between,
    Before,
    Past,
    AtEnd,
    AtEndWaiting,
}
use Start::*;

pub const STARTS: [(Start, &str); 11] = [
    (AtBase, "at the base"),
    (Outside, "at another record outside blocks"),
    (OutsideWaiting, "there with conditions waiting"),
    (Inside, "in a block"),
    (InsideNone, "there with none waiting"),
    (InsideOther, "there with others waiting"),
    (Between, "between records"),
    (Before, "before the base"),
    (Past, "past the end"),
    (AtEnd, "at the end"),
    (AtEndWaiting, "there with conditions waiting (R22)"),
];
const AL: u8 = 14;
const PC: usize = 15;

/// Mostly at the base, for all that comes of a program comes from there.
pub fn start(prng: &mut Prng, scene: &mut Scene) -> Start {
    let start = if prng.once_in(2) { AtBase } else { prng.pick(&STARTS).0 };
    let (start, (at, waiting)) = match place(prng, scene, start) {
        Some(place) => (start, place),
        None => (AtBase, (0, Vec::new())),
    };
    scene.image.registers[PC] = scene.base.wrapping_add(at as u32) & !1;
    scene.image.wait(&waiting);
    start
}

/// How far from the base, and the conditions waiting; None where the listing has no such place.
fn place(prng: &mut Prng, scene: &Scene, start: Start) -> Option<(i64, Vec<u8>)> {
    let (spots, end) = (spots(&scene.records), end_of(&scene.records));
    let waiting = waiting(scene);
    let outside: Vec<usize> = (1..spots.len()).filter(|&at| spots[at].outside).collect();
    let inside: Vec<usize> = (1..spots.len()).filter(|&at| !spots[at].outside).collect();
    let mut one = |from: &[usize]| (!from.is_empty()).then(|| prng.pick(from));
    let (outside, inside) = (one(&outside), one(&inside));
    let by = 2 + 2 * i64::from(prng.below(4));
    Some(match start {
        AtBase => (0, Vec::new()),
        Outside => (spots[outside?].at, Vec::new()),
        OutsideWaiting => (spots[outside?].at, other(prng, &[])),
        Inside => (spots[inside?].at, waiting[inside?].clone()),
        InsideNone => (spots[inside?].at, Vec::new()),
        InsideOther => (spots[inside?].at, other(prng, &waiting[inside?])),
        Between => (spots.windows(2).find(|two| two[1].at - two[0].at == 4)?[0].at + 2, Vec::new()),
        Before => (-by, Vec::new()),
        Past => (end + by, Vec::new()),
        AtEnd => (end, Vec::new()),
        AtEndWaiting => (end, other(prng, &[])),
    })
}

/// What waits at each record.
fn waiting(scene: &Scene) -> Vec<Vec<u8>> {
    let mut waiting = vec![Vec::new()];
    for record in &scene.records {
        let after = waiting.last().map_or(Vec::new(), |now| after(now, record));
        waiting.push(after);
    }
    waiting
}

/// Conditions of a good machine, other than these: one less, one more, the inverses, or any.
pub fn other(prng: &mut Prng, these: &[u8]) -> Vec<u8> {
    let inverse = |&condition: &u8| if condition == AL { 0 } else { condition ^ 1 };
    let mut other = match (prng.below(4), these) {
        (0, [_, rest @ .., _]) => [&these[..1], rest].concat(),
        (1, [first, ..]) if these.len() < 4 => [these, &[*first]].concat(),
        (2, [_, ..]) => these.iter().map(inverse).collect(),
        (_, _) => vec![prng.below(15) as u8; 1 + prng.below(4) as usize],
    };
    if other == these {
        other[0] = inverse(&other[0]);
        other.truncate(1);
    }
    other
}
