//! A run as a question.

pub use super::answer::Answer;
use super::answer::WORD;
use super::UNFIT;
use crate::{hex, image, proved};
use second::machine::Machine;
use second::run::run;
use std::fmt;

/// The length that the room for number, place and count has to have.
pub const ROOM: usize = 12;

/// The machine is an image of any length, and the room for the answer has any length too.
#[derive(Clone)]
pub struct Question {
    pub image: Vec<u8>,
    pub listing: Vec<u8>,
    pub listing_base: u32,
    pub memory: Vec<u8>,
    pub memory_base: u32,
    pub budget: u32,
    pub room: usize,
}

impl Question {
    /// "An image that is none, or an answer of another length, is number 1, and nothing is changed,
    /// `answer` neither."
    pub fn is_none(&self, room: usize) -> bool {
        self.room != room || !image::is_one(&self.image)
    }

    /// The answer with these words, of which the first is the number, and with nothing changed.
    pub fn answered(&self, words: &[u32]) -> Answer {
        let mut answer = Answer { number: words[0], ..Answer::default() };
        answer.lend(self);
        if !self.is_none(WORD * words.len()) {
            answer.write(words);
        }
        answer
    }

    /// A function of the second program, which is given the machine and memory, says which words
    /// are put in the room.
    pub(super) fn answer_by<const WORDS: usize>(
        &self,
        answer: &mut Answer,
        function: impl FnOnce(&mut Machine, &mut [u8]) -> [u32; WORDS],
    ) {
        let [image, memory, _] = answer.lend(self);
        let machine = second::image::decode(image).filter(|_| !self.is_none(WORD * WORDS));
        let mut machine = match machine {
            Some(machine) => machine,
            None => return answer.number = UNFIT,
        };
        let words = function(&mut machine, memory);
        image.copy_from_slice(&second::image::encode(&machine));
        answer.number = words[0];
        answer.write(&words);
    }
}

impl super::Question for Question {
    type Answer = Answer;

    fn ask_proved(&self, answer: &mut Answer) {
        let [image, memory, room] = answer.lend(self);
        let listing = (&self.listing[..], self.listing_base);
        answer.number = proved::run(image, listing, (memory, self.memory_base), self.budget, room);
    }

    fn ask_second(&self, answer: &mut Answer) {
        let (listing, base, memory_base) = (&self.listing, self.listing_base, self.memory_base);
        self.answer_by(answer, |machine, memory| {
            let ran = run(machine, listing, base, memory, memory_base, self.budget);
            [ran.number, ran.place, ran.count]
        });
    }

    fn apart(names: [&str; 2], answers: [&Answer; 2]) -> Vec<String> {
        Answer::apart(names, answers)
    }
}

impl fmt::Display for Question {
    fn fmt(&self, f: &mut fmt::Formatter<'_>) -> fmt::Result {
        writeln!(f, "image: {}", hex::line(&self.image))?;
        writeln!(f, "that is {}", image::text(&self.image))?;
        writeln!(f, "base {:08X}, {} bytes:", self.listing_base, self.listing.len())?;
        writeln!(f, "listing {}", hex::memory(&self.listing))?;
        writeln!(f, "memory of {} bytes", self.memory.len())?;
        writeln!(f, "memory {:08X}: {}", self.memory_base, hex::memory(&self.memory))?;
        write!(f, "budget {}, room for {} bytes", self.budget, self.room)
    }
}
