//! Runs of one record, from every machine's image that differs from a good one in one byte.

use super::Comparison;
use crate::image::Image;
use crate::image_bytes::sweep;
use crate::question::run::{Question, ROOM};
use crate::Outcome;

const BASE: u32 = 0x1000;
const PC: usize = 15;
const NOP: [u8; 2] = [0x15, 0];

pub fn all(comparison: &mut Comparison) -> Outcome {
    let mut image = Image::FRESH;
    image.registers[PC] = BASE;
    sweep(image, |image| {
        let question = Question {
            image,
            listing: NOP.to_vec(),
            listing_base: BASE,
            memory: Vec::new(),
            memory_base: 0,
            budget: 2,
            room: ROOM,
        };
        comparison.put(&question).map(|_| ())
    })
}
