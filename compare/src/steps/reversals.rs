//! RBIT, which goes by swaps of fields (order 3 of paper 02): of each bit alone, of all bits but
//! one, of every second field of each width and such words with one bit turned over, of any word.

use super::scene::scene;
use super::sights::Look;
use super::spoil;
use crate::prng::Prng;
use crate::question::step::Question;
use crate::random_record;
use std::fmt;

const KIND: u8 = 0x06;
const RBIT: u8 = 4;
const BITS: usize = 32;
/// Every second field of 16, 8, 4, 2 bits and of one bit.
const FIELDS: [u32; 5] = [0x0000_FFFF, 0x00FF_00FF, 0x0F0F_0F0F, 0x3333_3333, 0x5555_5555];
/// Of each case.
const LEAST: u64 = 1_000;

pub fn question(prng: &mut Prng) -> Question {
    let mut record = random_record::of_kind(prng, KIND);
    record[1] = RBIT;
    let mut scene = scene(prng);
    scene.set(record[4], word(prng));
    spoil::question(prng, record, scene)
}

fn word(prng: &mut Prng) -> u32 {
    let (bit, fields) = (1 << prng.below(32), prng.pick(&FIELDS));
    match prng.below(8) {
        0..=2 => bit,
        3..=5 => !bit,
        6 => prng.pick(&[fields, !fields]) ^ prng.pick(&[0, bit]),
        _ => prng.word(),
    }
}

/// Steps done, by the one bit that is set and by the one that is clear; and of all other words.
pub struct Reversals {
    alone: [[u64; BITS]; 2],
    others: u64,
}

impl Reversals {
    pub fn new() -> Reversals {
        Reversals { alone: [[0; BITS]; 2], others: 0 }
    }

    /// A step that was done.
    pub fn see(&mut self, look: &Look) {
        if let [KIND, RBIT, _, _, rm] = *look.record {
            let word = look.register(rm);
            match (word.count_ones(), word.count_zeros()) {
                (1, _) => self.alone[1][word.trailing_zeros() as usize] += 1,
                (_, 1) => self.alone[0][word.trailing_ones() as usize] += 1,
                _ => self.others += 1,
            }
        }
    }

    pub fn gaps(&self) -> Vec<String> {
        let mut gaps = Vec::new();
        for (name, counts) in ["clear", "set"].iter().zip(&self.alone) {
            for (bit, count) in counts.iter().enumerate().filter(|(_, &count)| count < LEAST) {
                gaps.push(format!("RBIT with bit {bit} alone {name}: {count} times"));
            }
        }
        if self.others < LEAST {
            gaps.push(format!("RBIT of other words: {} times", self.others));
        }
        gaps
    }
}

impl fmt::Display for Reversals {
    fn fmt(&self, f: &mut fmt::Formatter<'_>) -> fmt::Result {
        let least = self.alone.map(|counts| counts.into_iter().min().unwrap_or(0));
        let [clear, set] = least;
        writeln!(
            f,
            "RBIT: of each bit alone set {set} times or more, alone clear {clear} or more, of other \
             words {}",
            self.others
        )
    }
}
