//! How the subjects of the runs ended, case by case.

use super::cases::{all, Case, Sort};
use super::reach::{accessed, reach};
use super::scene::Subject;
use super::Situation::{self, *};
use super::SITUATIONS;
use crate::counts::Counts;
use crate::image::{self, COUNT, FLAGS};
use crate::question::run::{Answer, Question};
use crate::runs::trace::trace;
use std::fmt;

/// Of each case in each situation.
const FEW: u64 = 20;
const PC: usize = 15;
const REFUSALS: [u32; 3] = [5, 6, 7];
const WAITING: [&str; 5] = ["none", "1", "2", "3", "4"];

pub struct Kinds {
    cases: Vec<Case>,
    /// Of each case: outside a block, in one with a condition that passes, and with one that fails.
    counts: Vec<[u64; 3]>,
    /// Of the refused ones, by number.
    waiting: [Counts<5>; 3],
}

impl Kinds {
    pub fn new() -> Kinds {
        let (cases, titles) = (all(), ["waiting at 5", "waiting at 6", "waiting at 7"]);
        let counts = vec![[0; 3]; cases.len()];
        Kinds { cases, counts, waiting: titles.map(|title| Counts::new(title, WAITING)) }
    }

    /// A run with steps enough, and the answer that both sides gave.
    pub fn see(&mut self, index: usize, subject: &Subject, question: &Question, answer: &Answer) {
        let case = &self.cases[index];
        let refused = matches!(answer.ran(), Some([5..=7, place, _]) if place == subject.place);
        let situation = if refused {
            let counts = refused_so(case, subject, question, answer);
            let waiting = answer.lent.image[COUNT];
            if let (true, Sort::Refused) = (counts, case.sort) {
                self.waiting[case.number as usize - 5].add(waiting.into());
            }
            counts.then_some(if waiting > 0 { Passed } else { Outside })
        } else {
            // one that would be refused is done just where its condition fails
            done(subject, question, answer).filter(|&its| case.number == 0 || its == Failed)
        };
        if let Some(situation) = situation {
            self.counts[index][situation as usize] += 1;
        }
    }

    pub fn gaps(&self) -> Vec<String> {
        let mut gaps = Vec::new();
        for (case, counts) in self.cases.iter().zip(&self.counts) {
            for situation in SITUATIONS.into_iter().filter(|&its| case.occurs(its)) {
                match counts[situation as usize] {
                    FEW.. => (),
                    count => gaps.push(format!("{case}, {}: {count} times", words(situation))),
                }
            }
        }
        gaps.extend(self.waiting.iter().flat_map(|counts| counts.gaps(FEW)));
        gaps
    }

    /// Of the cases of a sort, number and kind: how many there are, and in each situation the fewest
    /// times that one of them came up.
    fn fewest(&self, sort: Sort, number: u32, kind: u8) -> (usize, [Option<u64>; 3]) {
        let is_one = |case: &Case| {
            case.sort == sort
                && case.kind == kind
                && (sort != Sort::Refused || case.number == number)
        };
        let these: Vec<_> =
            self.cases.iter().zip(&self.counts).filter(|(case, _)| is_one(case)).collect();
        let fewest = SITUATIONS.map(|situation| {
            let possible = these.iter().filter(|(case, _)| case.occurs(situation));
            possible.map(|(_, counts)| counts[situation as usize]).min()
        });
        (these.len(), fewest)
    }
}

fn words(situation: Situation) -> &'static str {
    match situation {
        Outside => "outside a block",
        Passed => "passed in a block",
        Failed => "failed in a block",
    }
}

/// With its number, with as much in memory as the case wants, and after steps that changed a register,
/// the flags and memory.
fn refused_so(case: &Case, subject: &Subject, question: &Question, answer: &Answer) -> bool {
    let (before, after) = (&question.image, &answer.lent.image);
    let changed = before[..4 * PC] != after[..4 * PC]
        && before[FLAGS..COUNT] != after[FLAGS..COUNT]
        && question.memory != answer.lent.memory;
    let record = &question.listing[subject.place as usize..];
    let record = second::read::read(record, 0).map_or(record, |(_, length)| &record[..length]);
    let access = accessed(record, subject.address, |its| image::register(after, its.into()));
    let reached = access.map(|access| reach(access, question.memory_base, question.memory.len()));
    answer.number == case.number
        && changed
        && case.holds(record)
        && (case.reach.is_none() || case.reach == reached)
}

/// In which situation the subject was done; None where the run did not come past it.
fn done(subject: &Subject, question: &Question, answer: &Answer) -> Option<Situation> {
    let mut situation = None;
    trace(question, answer.count(), |look| {
        if look.before.address() == subject.address && situation.is_none() {
            let waits = look.before.waiting.first();
            situation = Some(match waits.map(|condition| look.before.passes(condition)) {
                None => Outside,
                Some(true) => Passed,
                Some(false) => Failed,
            });
        }
    });
    situation
}

impl fmt::Display for Kinds {
    fn fmt(&self, f: &mut fmt::Formatter<'_>) -> fmt::Result {
        let mut line = |title: &str, sort, number| {
            let kinds = (1..=0x16).map(|kind| (kind, self.fewest(sort, number, kind)));
            let texts: Vec<String> = kinds
                .filter(|&(_, (cases, _))| cases > 0)
                .map(|(kind, (cases, fewest))| format!("{kind:02X} {cases} cases {}", told(fewest)))
                .collect();
            writeln!(f, "{title}, each outside, passed, failed at least: {}", texts.join(", "))
        };
        line("done in all forms", Sort::Done, 0)?;
        line("with R13 and R15", Sort::Standing, 0)?;
        for number in REFUSALS {
            line(&format!("refused with {number}"), Sort::Refused, number)?;
        }
        self.waiting.iter().try_for_each(|counts| writeln!(f, "{counts}"))
    }
}

fn told(fewest: [Option<u64>; 3]) -> String {
    fewest.map(|few| few.map_or("-".to_string(), |count| count.to_string())).join("/")
}
