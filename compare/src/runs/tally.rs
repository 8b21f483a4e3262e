//! How the runs began and ended, and whether all that is to be tried was.

use super::scene::{Lies, MEMORIES};
use super::sights::SIGHTS;
use super::start::{Start, STARTS};
use super::trace::trace;
use crate::counts::Counts;
use crate::image_bytes::ImageBytes;
use crate::memory_length::LIMIT;
use crate::question::run::{Answer, Question, ROOM};
use std::fmt;

/// Of each number.
const LEAST: u64 = 500;
/// Of all else, in hundreds of thousands of runs.
const FEW: u64 = 20;

const NUMBERS: [&str; 11] = ["0", "1", "2", "3", "4", "5", "6", "7", "8", "9", "10"];
const UNFIT: [&str; 7] = [
    "a machine that is not good",
    "an image that is none",
    "an answer of another length",
    "memory over its limit",
    "memory past 2^32",
    "memory at its limit",
    "memory above 4,096 bytes and below its limit",
];
/// Beside the count of steps with which the run ended that had enough.
const BUDGETS: [&str; 7] = ["0", "1", "its count", "one less", "one more", "4294967295", "another"];
const LARGE: usize = 4_096;

pub struct Tally {
    numbers: Counts<11>,
    starts: Counts<11>,
    memories: Counts<6>,
    unfit: Counts<7>,
    budgets: Counts<7>,
    /// Refused steps, where an earlier step had changed memory.
    changed: Counts<3>,
    sights: Counts<{ SIGHTS.len() }>,
    images: ImageBytes,
    steps: u64,
}

impl Tally {
    pub fn new() -> Tally {
        Tally {
            numbers: Counts::new("ended with", NUMBERS),
            starts: Counts::new("began", STARTS.map(|(_, name)| name)),
            memories: Counts::new("memory", MEMORIES.map(|(_, name)| name)),
            unfit: Counts::new("limits", UNFIT),
            budgets: Counts::new("budget", BUDGETS),
            changed: Counts::new("refused with memory changed before by", ["5", "6", "7"]),
            sights: Counts::new("among the steps", SIGHTS.map(|(name, _)| name)),
            images: ImageBytes::new(),
            steps: 0,
        }
    }

    pub fn scene(&mut self, start: Start, lies: Lies) {
        self.starts.add(start as usize);
        self.memories.add(lies as usize);
    }

    pub fn budget(&mut self, budget: u32, count: u32) {
        self.budgets.add(match budget {
            0 => 0,
            1 => 1,
            u32::MAX => 5,
            _ if budget == count => 2,
            _ if budget + 1 == count => 3,
            _ if budget == count + 1 => 4,
            _ => 6,
        });
    }

    pub fn run(&mut self, question: &Question, answer: &Answer) {
        self.numbers.add(answer.number as usize);
        self.steps += u64::from(answer.count());
        if let (5..=7, true) = (answer.number, answer.lent.memory != question.memory) {
            self.changed.add(answer.number as usize - 5);
        }
        if let Some(sort) = unfit(question) {
            self.unfit.add(sort);
        }
        self.images.see(&question.image, answer.number);
    }

    pub fn steps(&mut self, question: &Question, count: u32) {
        trace(question, count, |look| {
            for (sort, (_, sees)) in SIGHTS.iter().enumerate() {
                if sees(look) {
                    self.sights.add(sort);
                }
            }
        });
    }

    pub fn gaps(&self) -> Vec<String> {
        let few = [
            self.numbers.gaps(LEAST),
            self.starts.gaps(FEW),
            self.memories.gaps(FEW),
            self.unfit.gaps(FEW),
            self.budgets.gaps(FEW),
            self.changed.gaps(FEW),
            self.sights.gaps(FEW),
            self.images.gaps(),
        ];
        few.concat()
    }
}

fn unfit(question: &Question) -> Option<usize> {
    let (image, length) = (&question.image, question.memory.len());
    let machine = second::image::decode(image).filter(|_| crate::image::is_one(image));
    match machine {
        _ if question.room != ROOM => Some(2),
        None => Some(1),
        Some(machine) if !machine.good() => Some(0),
        _ if length > LIMIT => Some(3),
        _ if question.memory_base as usize + length > 1 << 32 => Some(4),
        _ if length == LIMIT => Some(5),
        _ => (length > LARGE).then_some(6),
    }
}

impl fmt::Display for Tally {
    fn fmt(&self, f: &mut fmt::Formatter<'_>) -> fmt::Result {
        writeln!(f, "{}", self.numbers)?;
        writeln!(f, "{}", self.starts)?;
        writeln!(f, "{}", self.memories)?;
        writeln!(f, "{}", self.unfit)?;
        writeln!(f, "{}", self.budgets)?;
        writeln!(f, "{}", self.changed)?;
        writeln!(f, "steps in all: {}; of one run of each scene", self.steps)?;
        writeln!(f, "{}", self.sights)?;
        write!(f, "{}", self.images)
    }
}
