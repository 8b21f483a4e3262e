//! A run of a running machine as a question: order 6 of paper 02.

pub use super::answer::Answer;
use super::run;
use crate::proved;
use second::run::{begin, resume};
use std::fmt;

/// The length that the room for number, place, count and stored place has to have.
pub const ROOM: usize = 16;
/// The stored place where there is none (S45).
pub const NONE: u32 = 0xFFFF_FFFF;

/// "two entry points" (S46).
#[derive(Clone, Copy, PartialEq, Eq)]
pub enum Entry {
    Fresh,
    /// A resume with this stored place.
    Stored(u32),
}

#[derive(Clone)]
pub struct Question {
    pub run: run::Question,
    pub entry: Entry,
}

impl super::Question for Question {
    type Answer = Answer;

    fn ask_proved(&self, answer: &mut Answer) {
        let run = &self.run;
        let [image, memory, room] = answer.lend(run);
        let (listing, memory) = ((&run.listing[..], run.listing_base), (memory, run.memory_base));
        answer.number = match self.entry {
            Entry::Fresh => proved::begin(image, listing, memory, run.budget, room),
            Entry::Stored(place) => proved::resume(image, listing, memory, run.budget, place, room),
        };
    }

    fn ask_second(&self, answer: &mut Answer) {
        let (listing, base) = (&self.run.listing, self.run.listing_base);
        let (memory_base, budget) = (self.run.memory_base, self.run.budget);
        self.run.answer_by(answer, |machine, memory| {
            let halted = match self.entry {
                Entry::Fresh => begin(machine, listing, base, memory, memory_base, budget),
                Entry::Stored(place) => {
                    let stored = (place != NONE).then_some(place);
                    resume(machine, listing, base, memory, memory_base, budget, stored)
                }
            };
            let ran = halted.ran;
            [ran.number, ran.place, ran.count, halted.stored.unwrap_or(NONE)]
        });
    }

    fn apart(names: [&str; 2], answers: [&Answer; 2]) -> Vec<String> {
        Answer::apart(names, answers)
    }
}

impl fmt::Display for Question {
    fn fmt(&self, f: &mut fmt::Formatter<'_>) -> fmt::Result {
        match self.entry {
            Entry::Fresh => writeln!(f, "fresh run of a running machine")?,
            Entry::Stored(NONE) => writeln!(f, "resume, stored place none")?,
            Entry::Stored(place) => writeln!(f, "resume, stored place {place}")?,
        }
        write!(f, "{}", self.run)
    }
}
