//! A step as a question.

use super::apart::Apart;
use super::{Lent, UNFIT};
use crate::{hex, image, proved};
use std::fmt;

/// The machine is an image of any length.
pub struct Question {
    pub image: Vec<u8>,
    pub record: Vec<u8>,
    pub base: u32,
    pub memory: Vec<u8>,
}

impl Question {
    /// Whether nothing is number 1 but, perhaps, how long memory is.
    pub fn is_fit_but_for_length(&self) -> bool {
        let machine = second::image::decode(&self.image).filter(|_| image::is_one(&self.image));
        machine.map_or(false, |machine| machine.good())
            && self.base as usize + self.memory.len() <= 1 << 32
    }
}

#[derive(Clone, PartialEq, Eq, Default)]
pub struct Answer {
    pub number: u32,
    pub lent: Lent,
}

impl super::Question for Question {
    type Answer = Answer;

    fn ask_proved(&self, answer: &mut Answer) {
        let Answer { number, lent } = answer;
        lent.fill(&self.image, &self.memory);
        *number = proved::step(&mut lent.image, &self.record, &mut lent.memory, self.base);
    }

    /// "An image of another length, with another flag byte .. is number 1, and nothing is changed."
    fn ask_second(&self, answer: &mut Answer) {
        let Answer { number, lent } = answer;
        lent.fill(&self.image, &self.memory);
        *number = match second::image::decode(&lent.image) {
            Some(mut machine) => {
                let number =
                    second::step::step(&mut machine, &self.record, &mut lent.memory, self.base);
                lent.image.copy_from_slice(&second::image::encode(&machine));
                number
            }
            None => UNFIT,
        };
    }

    fn apart(names: [&str; 2], answers: [&Answer; 2]) -> Vec<String> {
        let mut apart = Apart::new(names);
        apart.values("number", answers.map(|answer| answer.number));
        apart.lent(answers.map(|answer| &answer.lent));
        apart.lines
    }
}

impl fmt::Display for Question {
    fn fmt(&self, f: &mut fmt::Formatter<'_>) -> fmt::Result {
        writeln!(f, "image: {}", hex::line(&self.image))?;
        writeln!(f, "that is {}", image::text(&self.image))?;
        writeln!(f, "record {}", hex::line(&self.record))?;
        writeln!(f, "memory of {} bytes", self.memory.len())?;
        write!(f, "memory {:08X}: {}", self.base, hex::memory(&self.memory))
    }
}

/// Memory is left out: it is as before but for few bytes, which `apart` tells.
impl fmt::Display for Answer {
    fn fmt(&self, f: &mut fmt::Formatter<'_>) -> fmt::Result {
        write!(f, "gives {}, image: {}", self.number, hex::line(&self.lent.image))
    }
}
