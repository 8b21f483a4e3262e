//! What is asked of both sides, and what each answers.

mod answer;
mod apart;
pub mod check;
pub mod resume;
pub mod run;
mod sides;
pub mod step;

pub use sides::Sides;
use std::fmt;

/// "machine not good; memory over its limit or past 2^32", and an image that is none.
const UNFIT: u32 = 1;

/// A question displays itself so that it can be put again.
pub trait Question: fmt::Display {
    type Answer: Default + PartialEq + fmt::Display;

    /// The answer has room that is used again: millions of questions are put.
    fn ask_proved(&self, answer: &mut Self::Answer);

    fn ask_second(&self, answer: &mut Self::Answer);

    /// What two answers to the question do not have in common, a line each.
    fn apart(names: [&str; 2], answers: [&Self::Answer; 2]) -> Vec<String>;
}

/// What is lent to be changed, as it is afterwards: the machine's image and memory.
#[derive(Clone, PartialEq, Eq, Default)]
pub struct Lent {
    pub image: Vec<u8>,
    pub memory: Vec<u8>,
}

impl Lent {
    fn fill(&mut self, image: &[u8], memory: &[u8]) {
        self.image.clear();
        self.image.extend_from_slice(image);
        self.memory.clear();
        self.memory.extend_from_slice(memory);
    }
}
