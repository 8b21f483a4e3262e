//! Loads and stores into memory, and steps that are refused.

use super::{Author, BAD, COUNTERS, DATA, PC, SP, WALK};
use crate::prng::Prng;

const STR: u8 = 5;

impl Author<'_> {
    /// In memory, as long as R9 has not walked out of it.
    pub fn access(&mut self) {
        let prng = &mut *self.prng;
        let (op, form) = (prng.below(8) as u8, prng.pick(&[0, 2]));
        let (rt, rt2) = (prng.below(3) as u8, 3 + prng.below(3) as u8);
        let (byte, word) = (prng.below(61) as u8, 4 * prng.below(14) as u8);
        let list = prng.below(63) as u8 + 1;
        let counter = prng.pick(&COUNTERS);
        let record = match prng.below(10) {
            0..=2 => vec![0x0D, op, form, rt, DATA, 0, byte, 0],
            3 => walk(prng, rt),
            4 => vec![0x0E, op, form, rt, DATA, counter, prng.below(3) as u8],
            5 => vec![0x0F, op & 1, form, rt, rt2, DATA, 0, word, 0],
            6 => vec![0x10, op & 2, form, DATA, 0, list, 0],
            7 => vec![0x0D, STR, form, SP, DATA, 0, word, 0],
            8 | 9 if self.plan.literal => literal(prng, [rt, rt2]),
            _ => vec![0x0D, prng.pick(&[0, STR]), form, rt2, DATA, 0, word, 0],
        };
        self.writer.push(&record);
    }

    /// 5, 6 or 7, mostly after a store, so that memory is not as it was given.
    pub fn fault(&mut self) {
        if !self.prng.once_in(4) {
            let (rt, word) = (self.prng.below(6) as u8, 4 * self.prng.below(14) as u8);
            self.writer.push(&[0x0D, STR, 0, rt, DATA, 0, word, 0]);
        }
        let prng = &mut *self.prng;
        let record = match prng.below(12) {
            0 | 1 => vec![0x0F, prng.below(2) as u8, 2, 0, 1, BAD, 0, 0, 0],
            2 => vec![0x10, prng.below(4) as u8, 2, BAD, prng.below(2) as u8, 0x3F, 0],
            3 => vec![0x0D, 0, 2, PC, BAD, 0, 0, 0],
            4 => vec![0x0D, prng.below(8) as u8, 0, 1, BAD, prng.below(3) as u8, 4, 0],
            5 => vec![0x0D, prng.pick(&[0, STR]), 2, 1, DATA, 0, 0xF0, 0x0F],
            6 => vec![0x0E, 0, 2, 1, DATA, BAD, 3],
            7 => vec![0x12, prng.below(2) as u8, 0, DATA],
            8 => vec![0x12, 0, 0, prng.pick(&[SP, PC])],
            9 => vec![0x01, 10, 0, SP, 0, BAD, 0, 0],
            10 => vec![0x02, 0, 0, SP, SP, 1 + prng.below(3) as u8, 0, 0, 0],
            _ => vec![0x0D, 0, 0, SP, DATA, 0, prng.below(61) as u8, 0],
        };
        self.writer.push(&record);
    }
}

/// R9 moves by a word.
fn walk(prng: &mut Prng, rt: u8) -> Vec<u8> {
    let [low, high] = prng.pick(&[4i16, 4, -4]).to_le_bytes();
    vec![0x0D, prng.pick(&[0, 0, STR]), 0, rt, WALK, 1 + prng.below(2) as u8, low, high]
}

/// Data that R15 leads to.
fn literal(prng: &mut Prng, [rt, rt2]: [u8; 2]) -> Vec<u8> {
    let word = 4 * prng.below(40) as u8;
    match prng.below(3) {
        0 => vec![0x0F, 0, 2, rt, rt2, PC, 0, word, 0],
        _ => vec![0x0D, prng.below(5) as u8, 2, rt, PC, 0, word, 0],
    }
}
