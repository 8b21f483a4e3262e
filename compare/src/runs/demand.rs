//! Demand 3, tried with the proved functions alone: an accepted listing that is run from its base by
//! a good machine, with nothing waiting and memory within its limits, never ends with 1 to 4, and
//! with 8 only where the last step took its next address from a register or from memory. A refused
//! run leaves what the steps before it left. Order 1 of paper 02: "demand 3 is then read for a listing
//! whose first record isn't a filler"; order 6: it takes a resume "in place of its start", which
//! `resumes` tells.

use crate::counts::Counts;
use crate::image::{self, COUNT};
use crate::measured::{measured, Measured};
use crate::question::run::{Answer, Question, ROOM};
use crate::question::Question as _;
use crate::table::{FILLER, TABLE_BRANCH};
use crate::{proved, Outcome};
use std::fmt;

const FEW: u64 = 20;
const SP: usize = 13;
const PC: usize = 15;
const MEMORY_LIMIT: usize = 1_048_576;
const USED_UP: u32 = 10;
/// What `proved::way` gives for a record that takes its next address from a register or from memory.
const TAKEN: u64 = 2;
const NUMBERS: [&str; 6] = ["0", "5", "6", "7", "8", "10"];
const WAYS: [&str; 9] = ["BX", "BLX", "MOV", "ADD", "LDR", "LDR by index", "LDM", "TBB", "TBH"];

pub struct Demand {
    numbers: Counts<6>,
    ways: Counts<9>,
    least: u64,
}

impl Demand {
    /// At least so many runs are to be tried.
    pub fn new(title: &'static str, least: u64) -> Demand {
        let (numbers, ways) = (Counts::new(title, NUMBERS), Counts::new("strayed by", WAYS));
        Demand { numbers, ways, least }
    }

    pub fn put(&mut self, question: &Question) -> Outcome {
        if !is_start(question) || proved::check(&question.listing, question.listing_base) != 0 {
            return Ok(());
        }
        let ask = |budget| {
            let mut answer = Answer::default();
            Question { budget, ..question.clone() }.ask_proved(&mut answer);
            answer
        };
        let held = self.hold(question, &ask(question.budget), ask);
        held.map_err(|broken| format!("{broken}\n{question}"))
    }

    /// Of a run that the demand takes, with its answer and those that the same has with other
    /// budgets. An error tells what breaks the demand.
    pub fn hold(
        &mut self,
        question: &Question,
        ran: &Answer,
        ask: impl Fn(u32) -> Answer,
    ) -> Outcome {
        let held = match ran.ran() {
            Some([0 | USED_UP, 0, _]) => Some(()),
            Some([5..=7, place, count]) => refused(question, ran, place, &ask(count)),
            Some([8, 0, count]) => {
                let before = count.checked_sub(1).map(ask);
                before.and_then(|its| strayed(question, ran, &its)).map(|way| self.ways.add(way))
            }
            _ => None,
        };
        match (held, NUMBERS.iter().position(|&name| name == ran.number.to_string())) {
            (Some(()), Some(sort)) => {
                self.numbers.add(sort);
                Ok(())
            }
            _ => Err(format!("demand 3 does not hold: proved {ran}")),
        }
    }

    pub fn gaps(&self) -> Vec<String> {
        let mut gaps = [self.numbers.gaps(FEW), self.ways.gaps(FEW)].concat();
        gaps.extend(self.numbers.fewer(self.least));
        gaps
    }
}

/// "good machine at the base, nothing waiting, memory within limits", no filler there, and the answer
/// has its room.
fn is_start(question: &Question) -> bool {
    let (image, memory) = (&question.image, &question.memory);
    question.room == ROOM
        && image::is_one(image)
        && image[COUNT] == 0
        && question.listing.first() != Some(&FILLER)
        && image::register(image, SP) % 4 == 0
        && image::register(image, PC) == question.listing_base
        && memory.len() <= MEMORY_LIMIT
        && question.memory_base as usize + memory.len() <= 1 << 32
}

/// With a budget of its count the run ends with 10 and leaves the same, and it is a step from there
/// that is refused.
fn refused(question: &Question, ran: &Answer, place: u32, before: &Answer) -> Option<()> {
    let site = site(question, before)?;
    let (number, after) = step(question, before, &site);
    let same = before.lent == ran.lent && after.lent == ran.lent;
    let at = site.place == place as usize && number == ran.number;
    (before.ran() == Some([USED_UP, 0, ran.count()]) && same && at).then_some(())
}

/// The run with a budget of one step less ends with 10; from there the record takes its next address
/// from a register or from memory and is done. In a block it does not just go on: its condition passed.
/// Outside one it has none, and may lead to the filler right behind it. Gives which of WAYS.
fn strayed(question: &Question, ran: &Answer, before: &Answer) -> Option<usize> {
    let site = site(question, before)?;
    let (number, after) = step(question, before, &site);
    let outside = before.lent.image[COUNT] == 0;
    let went = outside || u64::from(image::register(&after.lent.image, PC)) != site.next;
    let taken = proved::way(site.record, site.address as u32) == TAKEN;
    let one_less = before.ran() == Some([USED_UP, 0, ran.count() - 1]);
    if !(one_less && taken && went && number == 0 && after.lent == ran.lent) {
        return None;
    }
    match site.record {
        [0x12, op, ..] => Some(usize::from(*op)),
        [0x01, 10, ..] => Some(2),
        [0x01, ..] => Some(3),
        [kind @ 0x0D..=0x0E, ..] => Some(usize::from(*kind - 0x0D) + 4),
        [TABLE_BRANCH, op, ..] => Some(7 + usize::from(*op)),
        _ => Some(6),
    }
}

/// The record that a machine stands at, found by walking from the base.
fn site<'a>(question: &'a Question, answer: &Answer) -> Option<Measured<'a>> {
    let target = u64::from(image::register(&answer.lent.image, PC));
    measured(&question.listing, question.listing_base).find(|item| item.address == target)
}

fn step(question: &Question, before: &Answer, site: &Measured) -> (u32, Answer) {
    let mut after = before.clone();
    let (image, memory) = (&mut after.lent.image, &mut after.lent.memory);
    let number = proved::step(image, site.record, memory, question.memory_base);
    (number, after)
}

impl fmt::Display for Demand {
    fn fmt(&self, f: &mut fmt::Formatter<'_>) -> fmt::Result {
        writeln!(f, "{}", self.numbers)?;
        writeln!(f, "{}", self.ways)
    }
}
