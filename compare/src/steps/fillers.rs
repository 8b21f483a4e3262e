//! Kind 17 (order 1 of paper 02): "stepping a filler alone is 3", with any conditions waiting, passing
//! or not (S17); one that is none is 2.

use super::scene::{scene, wait};
use super::spoil;
use crate::counts::Counts;
use crate::prng::Prng;
use crate::question::step::Question;
use crate::table::FILLER;
use second::machine::Machine;
use std::fmt;

const MALFORMED: u32 = 2;
const RESTRICTED: u32 = 3;
/// Of each case.
const LEAST: u64 = 1_000;

pub fn question(prng: &mut Prng) -> Question {
    let number = prng.word() as u16;
    let number = match prng.below(16) {
        0 => 0,
        1 => number | 1,
        2 => 0xFFFF,
        3 => 2,
        4 => 0xFFFE,
        _ => number & !1,
    };
    let mut record = [&[FILLER][..], &number.to_le_bytes()].concat();
    match prng.below(24) {
        0 | 1 => record.truncate(1 + prng.below(2) as usize),
        2 | 3 => record.push(prng.byte()),
        _ => (),
    }
    let mut scene = scene(prng);
    wait(prng, &mut scene.image, &[0, 1, 2, 3, 4]);
    spoil::question(prng, record, scene)
}

type Sight = (&'static str, fn(&[u8], &Machine, u32) -> bool);

const SIGHTS: [Sight; 14] = [
    ("3 with none waiting", |_, machine, number| waits(machine, number, 0)),
    ("with one", |_, machine, number| waits(machine, number, 1)),
    ("with two", |_, machine, number| waits(machine, number, 2)),
    ("with three", |_, machine, number| waits(machine, number, 3)),
    ("with four", |_, machine, number| waits(machine, number, 4)),
    ("under one that passes", |_, machine, number| passes(machine) == Some(true) && number == 3),
    ("under one that fails", |_, machine, number| passes(machine) == Some(false) && number == 3),
    ("3 of 2 bytes", |record, _, number| record == [FILLER, 2, 0] && number == RESTRICTED),
    ("of 65,534", |record, _, number| record == [FILLER, 0xFE, 0xFF] && number == RESTRICTED),
    ("2 of 0 bytes", |record, _, number| record == [FILLER, 0, 0] && number == MALFORMED),
    ("of an odd number", |record, _, number| {
        matches!(record, [_, low, _] if low % 2 == 1) && number == MALFORMED
    }),
    ("of 65,535", |record, _, number| record == [FILLER, 0xFF, 0xFF] && number == MALFORMED),
    ("cut short", |record, _, number| record.len() < 3 && number == MALFORMED),
    ("with a byte more", |record, _, number| record.len() == 4 && number == MALFORMED),
];

fn waits(machine: &Machine, number: u32, count: usize) -> bool {
    machine.waiting.len() == count && number == RESTRICTED
}

/// Whether the condition that rules passes, if one waits.
fn passes(machine: &Machine) -> Option<bool> {
    machine.waiting.first().map(|condition| machine.passes(condition))
}

/// Steps with a good machine and fit memory.
pub struct Fillers(Counts<{ SIGHTS.len() }>);

impl Fillers {
    pub fn new() -> Fillers {
        Fillers(Counts::new("fillers", SIGHTS.map(|(name, _)| name)))
    }

    /// With the number that both sides gave.
    pub fn see(&mut self, question: &Question, number: u32) {
        let record = &question.record;
        if record.first() != Some(&FILLER) || !(MALFORMED..=RESTRICTED).contains(&number) {
            return;
        }
        if let Some(machine) = second::image::decode(&question.image) {
            for (sort, (_, sees)) in SIGHTS.iter().enumerate() {
                if sees(record, &machine, number) {
                    self.0.add(sort);
                }
            }
        }
    }

    pub fn gaps(&self) -> Vec<String> {
        self.0.gaps(LEAST)
    }
}

impl fmt::Display for Fillers {
    fn fmt(&self, f: &mut fmt::Formatter<'_>) -> fmt::Result {
        writeln!(f, "{}", self.0)
    }
}
