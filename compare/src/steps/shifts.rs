//! Kind 03, whose amount is "the lowest eight bits" of Rs (order 2 of paper 02): each shift, with and
//! without S, C set and clear before, by each low byte at which something changes, under other bytes.

use super::scene::scene;
use super::sights::Look;
use super::spoil;
use crate::image::FLAGS;
use crate::prng::Prng;
use crate::question::step::Question;
use crate::random_record;
use std::fmt;

const KIND: u8 = 0x03;
const LOW_BYTES: [u32; 7] = [0, 1, 31, 32, 33, 64, 255];
const NAMES: [&str; 4] = ["LSL", "LSR", "ASR", "ROR"];
/// Of each case.
const LEAST: u64 = 1_000;

pub fn question(prng: &mut Prng) -> Question {
    let record = random_record::of_kind(prng, KIND);
    let mut scene = scene(prng);
    scene.set(record[5], rs(prng));
    spoil::question(prng, record, scene)
}

/// A low byte under others at random.
pub fn rs(prng: &mut Prng) -> u32 {
    prng.word() & !0xFF | prng.pick(&LOW_BYTES)
}

/// Steps done whose Rs is above 255, by the shift, S, C before and the low byte.
pub struct Shifts([[[[u64; LOW_BYTES.len()]; 2]; 2]; NAMES.len()]);

impl Shifts {
    pub fn new() -> Shifts {
        Shifts([[[[0; LOW_BYTES.len()]; 2]; 2]; NAMES.len()])
    }

    /// A step that was done.
    pub fn see(&mut self, look: &Look) {
        if let [KIND, shift, form, _, _, rs] = *look.record {
            let held = look.register(rs);
            let low = LOW_BYTES.iter().position(|&low| low == held & 0xFF);
            if let (true, Some(low)) = (held > 0xFF, low) {
                let (s, c) = (form & 1, look.image[FLAGS + 2]);
                self.0[usize::from(shift)][usize::from(s)][usize::from(c)][low] += 1;
            }
        }
    }

    pub fn gaps(&self) -> Vec<String> {
        let mut gaps = Vec::new();
        for (name, by_s) in NAMES.iter().zip(&self.0) {
            for (s, c) in [(0, 0), (0, 1), (1, 0), (1, 1)] {
                for (low, count) in LOW_BYTES.iter().zip(by_s[s][c]) {
                    if count < LEAST {
                        gaps.push(format!("{name} by {low}, S {s}, C {c}: {count} times"));
                    }
                }
            }
        }
        gaps
    }
}

impl fmt::Display for Shifts {
    fn fmt(&self, f: &mut fmt::Formatter<'_>) -> fmt::Result {
        write!(f, "by Rs above 255, of the low bytes {LOW_BYTES:?}:")?;
        for (name, by_s) in NAMES.iter().zip(&self.0) {
            let mut counts = [0; LOW_BYTES.len()];
            for row in by_s.iter().flatten() {
                counts.iter_mut().zip(row).for_each(|(sum, count)| *sum += count);
            }
            write!(f, " {name} {counts:?}")?;
        }
        writeln!(f)
    }
}
