//! The answer to a run or a resume: with the numbers that are put in the room lent for them.

use super::apart::Apart;
use super::resume::NONE;
use super::{run, Lent};
use crate::hex;
use std::fmt;

/// What is in the room before: neither a number nor a place, so that it shows what was not written.
const UNTOUCHED: u8 = 0xA5;
pub const WORD: usize = 4;
/// Number, place and count; a stored place is the fourth.
const RAN: usize = 3;

/// The number that the function gives, the room for its numbers, and what was lent.
#[derive(Clone, PartialEq, Eq, Default)]
pub struct Answer {
    pub number: u32,
    pub room: Vec<u8>,
    pub lent: Lent,
}

impl Answer {
    /// Also gives the three slices that a run may change.
    pub(super) fn lend(&mut self, question: &run::Question) -> [&mut [u8]; 3] {
        let Answer { room, lent, .. } = self;
        lent.fill(&question.image, &question.memory);
        room.clear();
        room.resize(question.room, UNTOUCHED);
        [&mut lent.image, &mut lent.memory, room]
    }

    pub(super) fn write(&mut self, words: &[u32]) {
        for (bytes, word) in self.room.chunks_exact_mut(WORD).zip(words) {
            bytes.copy_from_slice(&word.to_le_bytes());
        }
    }

    fn word(&self, index: usize) -> Option<u32> {
        let bytes = self.room.get(WORD * index..)?.get(..WORD)?;
        let written = !self.is_untouched();
        written.then(|| u32::from_le_bytes([0, 1, 2, 3].map(|byte| bytes[byte])))
    }

    fn is_untouched(&self) -> bool {
        self.room.iter().all(|&byte| byte == UNTOUCHED)
    }

    /// Number, place and count, out of the room; None where nothing was written to it.
    pub fn ran(&self) -> Option<[u32; RAN]> {
        Some([self.word(0)?, self.word(1)?, self.word(2)?])
    }

    /// The steps completed; none where nothing was written to the room.
    pub fn count(&self) -> u32 {
        self.ran().map_or(0, |[_, _, count]| count)
    }

    /// The stored place, out of a room that has one.
    pub fn stored(&self) -> Option<u32> {
        self.word(RAN)
    }

    pub(super) fn apart(names: [&str; 2], answers: [&Answer; 2]) -> Vec<String> {
        let mut apart = Apart::new(names);
        apart.values("number", answers.map(|answer| answer.number));
        apart.values("answer", answers.map(Answer::room_text));
        apart.lent(answers.map(|answer| &answer.lent));
        apart.lines
    }

    fn room_text(&self) -> String {
        match (self.ran(), self.stored()) {
            _ if self.is_untouched() => "untouched".to_string(),
            (Some([number, place, count]), None) => format!("{number} at {place} steps {count}"),
            (Some([number, place, count]), Some(NONE)) => {
                format!("{number} at {place} steps {count} stored none")
            }
            (Some([number, place, count]), Some(stored)) => {
                format!("{number} at {place} steps {count} stored {stored}")
            }
            _ => hex::line(&self.room),
        }
    }
}

/// Memory is left out: `apart` tells what differs.
impl fmt::Display for Answer {
    fn fmt(&self, f: &mut fmt::Formatter<'_>) -> fmt::Result {
        let (room, image) = (self.room_text(), hex::line(&self.lent.image));
        write!(f, "gives {}, answer {room}, image: {image}", self.number)
    }
}
