//! Runs about one record each, the subject: every kind, op and form in a block and outside; every way
//! to be refused with 5, 6 and 7; R13 and R15 wherever they may stand. Earlier steps of the same run
//! change registers, flags and memory.

mod aim;
mod cases;
mod code;
mod reach;
mod record;
mod scene;
pub mod tally;

use super::{Comparison, ENOUGH, USED_UP};
use crate::prng::Prng;
use crate::Outcome;
use cases::Case;
use scene::Subject;

/// Of each case in each situation.
const SCENES: u64 = 60;

#[derive(Clone, Copy, PartialEq, Eq)]
pub enum Situation {
    Outside,
    Passed,
    Failed,
}
use Situation::*;

const SITUATIONS: [Situation; 3] = [Outside, Passed, Failed];

pub fn scenes(comparison: &mut Comparison, prng: &mut Prng) -> Outcome {
    for (index, case) in cases::all().iter().enumerate() {
        for situation in SITUATIONS.into_iter().filter(|&its| case.occurs(its)) {
            for _ in 0..SCENES {
                scene(comparison, prng, (index, case), situation)?;
            }
        }
    }
    Ok(())
}

/// Runs with several budgets. What can't be drawn lacks in the tally.
fn scene(
    comparison: &mut Comparison,
    prng: &mut Prng,
    (index, case): (usize, &Case),
    situation: Situation,
) -> Outcome {
    let (subject, mut question) = match scene::some(prng, case, situation) {
        Some(drawn) => drawn,
        None => return Ok(()),
    };
    question.budget = ENOUGH;
    let (number, count) = comparison.put(&question)?;
    comparison.kinds.see(index, &subject, &question, comparison.sides.answer());
    comparison.demand.put(&question)?;
    for budget in budgets(&subject, number, count) {
        question.budget = budget;
        comparison.put(&question)?;
    }
    Ok(())
}

/// Up to the subject and one less, past it, and the most there are where the run has an end.
fn budgets(subject: &Subject, number: u32, count: u32) -> Vec<u32> {
    let before = subject.before;
    let mut budgets = vec![before.saturating_sub(1), before, before + 1, count];
    budgets.extend((number != USED_UP).then_some(u32::MAX));
    budgets.dedup();
    budgets
}
