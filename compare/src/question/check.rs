//! The check of a listing as a question.

use super::apart::Apart;
use crate::{hex, proved};
use std::fmt;

pub struct Question {
    pub listing: Vec<u8>,
    pub base: u32,
}

#[derive(Clone, PartialEq, Eq, Default)]
pub struct Answer {
    pub number: u32,
    pub place: u32,
}

impl super::Question for Question {
    type Answer = Answer;

    fn ask_proved(&self, answer: &mut Answer) {
        let both = proved::check(&self.listing, self.base);
        *answer = Answer { number: both as u32, place: (both >> 32) as u32 };
    }

    fn ask_second(&self, answer: &mut Answer) {
        let (number, place) = second::check::check(&self.listing, self.base);
        *answer = Answer { number, place };
    }

    fn apart(names: [&str; 2], answers: [&Answer; 2]) -> Vec<String> {
        let mut apart = Apart::new(names);
        apart.values("answer", answers);
        apart.lines
    }
}

impl fmt::Display for Question {
    fn fmt(&self, f: &mut fmt::Formatter<'_>) -> fmt::Result {
        writeln!(f, "base {:08X}, {} bytes:", self.base, self.listing.len())?;
        write!(f, "listing {}", hex::memory(&self.listing))
    }
}

impl fmt::Display for Answer {
    fn fmt(&self, f: &mut fmt::Formatter<'_>) -> fmt::Result {
        write!(f, "{} at {}", self.number, self.place)
    }
}
