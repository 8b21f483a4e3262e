//! Mistakes: listings that the check refuses, what is number 1, answers without their room. Each is
//! rare, for it hides all else.

use super::scene::Scene;
use crate::checks::fault;
use crate::memory_length::{self, LIMIT};
use crate::prng::Prng;
use crate::question::run::{Question, ROOM};
use crate::{random_record, unfit};

const RARE: u32 = 40;
/// Memory of any length, up to its limit and one past it, takes long to compare.
const LARGE: u32 = 600;

/// One listing in five gets up to two mistakes.
pub fn listing(prng: &mut Prng, scene: &mut Scene) {
    if prng.once_in(5) {
        for _ in 0..prng.pick(&[1, 1, 2]) {
            fault::make(prng, &mut scene.records);
        }
    }
}

/// With no budget yet.
pub fn question(prng: &mut Prng, mut scene: Scene) -> Question {
    let mut listing = scene.records.concat();
    if prng.once_in(RARE) {
        random_record::damage(prng, &mut listing);
    }
    if prng.once_in(RARE) {
        unfit::machine(prng, &mut scene.image);
    }
    let mut image = scene.image.bytes();
    if prng.once_in(RARE) {
        unfit::image(prng, &mut image);
    }
    let room = if prng.once_in(RARE) { prng.pick(&[0, 4, 11, 13, 16, 24]) } else { ROOM };
    let (mut memory, mut memory_base) = (scene.memory, scene.memory_base);
    if prng.once_in(LARGE) {
        let any = memory_length::any(prng);
        memory.resize(prng.pick(&[LIMIT, LIMIT + 1, any, any, any]), 0);
    }
    if prng.once_in(RARE) {
        memory_base = unfit::past_the_top(prng, memory.len() as u32).unwrap_or(memory_base);
    }
    let (listing_base, budget) = (scene.base, 0);
    Question { image, listing, listing_base, memory, memory_base, budget, room }
}
