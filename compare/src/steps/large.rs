//! Memory of any length up to its limit of 1,048,576 bytes, at that, one below and one above it; at
//! address 0, with its end at 2^32, and one byte past that.

use super::scene::{fill, machine, Scene};
use super::{aim, record, spoil};
use crate::image::Image;
use crate::memory_length::{any, LIMIT};
use crate::prng::Prng;
use crate::question::step::Question;
use crate::stock::Stock;

/// So many bytes that are not zero stand at both ends and in the middle.
const SOME: usize = 100;

pub fn question(prng: &mut Prng, stock: &Stock) -> Question {
    let other = any(prng);
    let length = prng.pick(&[LIMIT - 1, LIMIT, LIMIT, LIMIT + 1, other, other, other, other]);
    let top = (length as u32).wrapping_neg();
    let base = prng.pick(&[0, 0x2000_0000, 0x2000_0000, 0x1FFF_FFF9, top, top, top + 1]);
    let mut memory = vec![0; length];
    for start in [0, length / 2, length.saturating_sub(SOME)] {
        let end = length.min(start + SOME);
        fill(prng, &mut memory[start..end]);
    }
    let mut scene = Scene { image: Image::FRESH, base, memory };
    machine(prng, &mut scene);
    let record = access(prng, stock);
    aim::aim(prng, &record, &mut scene);
    spoil::question(prng, record, scene)
}

/// Mostly an access, for the others know memory only by its length.
fn access(prng: &mut Prng, stock: &Stock) -> Vec<u8> {
    loop {
        let record = record::record(prng, stock);
        if matches!(record.first(), Some(0x0D..=0x10)) || prng.once_in(16) {
            return record;
        }
    }
}
