//! Some questions are made number 1. Few of them, for that hides all else.

use super::scene::Scene;
use crate::prng::Prng;
use crate::question::step::Question;
use crate::unfit;

const RARE: u32 = 64;

pub fn question(prng: &mut Prng, record: Vec<u8>, mut scene: Scene) -> Question {
    if prng.once_in(RARE) {
        unfit::machine(prng, &mut scene.image);
    }
    let mut image = scene.image.bytes();
    if prng.once_in(RARE) {
        unfit::image(prng, &mut image);
    }
    let mut base = scene.base;
    if prng.once_in(RARE) {
        base = unfit::past_the_top(prng, scene.memory.len() as u32).unwrap_or(base);
    }
    Question { image, record, base, memory: scene.memory }
}
