//! Runs that are cut: "keep it true through each step, each branch, each resume after number 10".

use super::law::Reach;
use super::{resumed, started, Comparison, USED_UP};
use crate::counts::Counts;
use crate::prng::Prng;
use crate::question::resume::{Answer, Entry, Question};
use crate::question::run;
use crate::runs::sights::SIGHTS;
use crate::runs::trace::{trace, Look};
use crate::table::TABLE_BRANCH;
use crate::Outcome;
use std::fmt;

/// Of each sort.
const FEW: u64 = 50;
/// Of each sort of step.
const FEWER: u64 = 10;
/// Runs of so many steps are cut after each of them; longer ones near their ends, and at some
/// counts.
const EACH: u32 = 40;
const LONG: u32 = 400;
const NEAR: u32 = 8;
const SOME: u32 = 8;
const ENDS: [&str; 6] = ["0", "5", "6", "7", "8", "10"];
const LINKS: [&str; 4] =
    ["cut at the start", "at the run's own end", "chains of one step", "chains of several"];

pub struct Cuts {
    /// Of the whole runs.
    ends: Counts<6>,
    links: Counts<4>,
    /// The step right before a cut.
    behind: Counts<{ SIGHTS.len() }>,
    tables: Counts<2>,
}

impl Cuts {
    pub fn new() -> Cuts {
        Cuts {
            ends: Counts::new("runs in parts, ended with", ENDS),
            links: Counts::new("runs in parts", LINKS),
            behind: Counts::new("cut behind", SIGHTS.map(|(name, _)| name)),
            tables: Counts::new("cut behind", ["TBB", "TBH"]),
        }
    }

    fn look(&mut self, look: &Look) {
        for (sort, (_, sees)) in SIGHTS.iter().enumerate() {
            if sees(look) {
                self.behind.add(sort);
            }
        }
        if let [TABLE_BRANCH, op, ..] = look.record {
            self.tables.add(usize::from(*op));
        }
    }

    pub fn gaps(&self) -> Vec<String> {
        let gaps = [
            self.ends.gaps(FEW),
            self.links.gaps(FEW),
            self.behind.gaps(FEWER),
            self.tables.gaps(FEW),
        ];
        gaps.concat()
    }
}

/// The whole run, and the same cut in two and in many.
pub fn put(comparison: &mut Comparison, prng: &mut Prng, mut run: run::Question) -> Outcome {
    started(prng, &mut run);
    run.budget = prng.pick(&[3, 12, 12, EACH, EACH, EACH, EACH, LONG]);
    let (reach, whole) = comparison.begin(&run)?;
    if reach != Reach::Runs {
        return Ok(());
    }
    if let Some(sort) = ENDS.iter().position(|&end| end == whole.number.to_string()) {
        comparison.cuts.ends.add(sort);
    }
    let counts = counts(prng, whole.count());
    let mut done = 0;
    trace(&run, whole.count(), |look| {
        done += 1;
        if counts.contains(&done) {
            comparison.cuts.look(look);
        }
    });
    for count in counts {
        cut(comparison, &run, &whole, count)?;
    }
    if whole.count() > EACH {
        return Ok(());
    }
    let (sort, budgets) =
        if prng.once_in(2) { (2, &[1][..]) } else { (3, &[0, 1, 1, 2, 3, 9][..]) };
    comparison.cuts.links.add(sort);
    chain(comparison, prng, &run, &whole, budgets)
}

/// After how many steps a run of so many is cut.
fn counts(prng: &mut Prng, count: u32) -> Vec<u32> {
    if count <= EACH {
        return (0..=count).collect();
    }
    let some: Vec<u32> = (0..SOME).map(|_| prng.below(count)).collect();
    [(0..NEAR).collect(), some, (count - NEAR..=count).collect()].concat()
}

/// What a resume gives from where the first part ended is what the whole run gives, and the counts
/// of the two add up. The run's own end is reached again at once. With an end of its own the rest
/// may have any budget.
pub fn cut(
    comparison: &mut Comparison,
    run: &run::Question,
    whole: &Answer,
    count: u32,
) -> Outcome {
    let (_, first) = comparison.begin(&run::Question { budget: count, ..run.clone() })?;
    let most = whole.number != USED_UP && count % 2 == 1;
    let rest = resumed(run, &first, if most { u32::MAX } else { run.budget - count });
    let (_, then) = comparison.put(&rest)?;
    if count == 0 {
        comparison.cuts.links.add(0);
    }
    if first.number != USED_UP {
        comparison.cuts.links.add(1);
    }
    joined(&rest, whole, &then, first.count() + then.count())
}

/// From no step on, by resumes with budgets such as these.
pub fn chain(
    comparison: &mut Comparison,
    prng: &mut Prng,
    run: &run::Question,
    whole: &Answer,
    budgets: &[u32],
) -> Outcome {
    let start = run::Question { budget: 0, ..run.clone() };
    let mut question = Question { run: start, entry: Entry::Fresh };
    let (_, mut last) = comparison.put(&question)?;
    let mut count = 0;
    while last.number == USED_UP && count < run.budget {
        question = resumed(run, &last, prng.pick(budgets).min(run.budget - count));
        (_, last) = comparison.put(&question)?;
        count += last.count();
        if last.number == USED_UP && last.count() != question.run.budget {
            return Err(format!("10 with steps left:\n{question}\nboth sides {last}"));
        }
    }
    joined(&question, whole, &last, count)
}

/// The last part, what came of it, and the steps of all parts.
fn joined(question: &Question, whole: &Answer, last: &Answer, count: u32) -> Outcome {
    let [number, place, _] = last.ran().unwrap_or_default();
    let same = whole.ran() == Some([number, place, count])
        && whole.stored() == last.stored()
        && whole.lent == last.lent;
    if same {
        return Ok(());
    }
    let parts = format!("the last part {last}\nsteps of all parts {count}");
    Err(format!("a run in parts is not the whole run:\n{question}\nthe whole {whole}\n{parts}"))
}

impl fmt::Display for Cuts {
    fn fmt(&self, f: &mut fmt::Formatter<'_>) -> fmt::Result {
        writeln!(f, "{}\n{}\n{}\n{}", self.ends, self.links, self.behind, self.tables)
    }
}
