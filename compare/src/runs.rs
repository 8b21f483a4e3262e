//! Runs: number, place and count, the machine's image and every byte of memory.

pub mod demand;
mod images;
mod kinds;
mod long;
pub mod pieces;
pub mod samples;
pub mod scene;
pub mod sights;
mod spoil;
pub mod start;
pub mod tables;
mod tally;
pub mod trace;
pub mod writer;

use crate::counts::fewer;
use crate::prng::Prng;
use crate::question::run::{Answer, Question};
use crate::question::Sides;
use crate::Outcome;
use demand::Demand;
use kinds::tally::Kinds;
use scene::Lies;
use start::Start;
use tables::tally::Tables;
use tally::Tally;

pub const SEED: u64 = 0x5209_2026;
const SCENES: u64 = 100_000;
/// The fewest runs that demand 3 is to be tried with.
const DEMANDED: u64 = 40_000;
const USED_UP: u32 = 10;
/// Steps enough for nearly every program that has an end.
const ENOUGH: u32 = 400;

pub fn run(least: u64, seed: u64) -> Result<String, String> {
    let mut prng = Prng::new(seed);
    let mut comparison = Comparison::new(seed);
    samples::all(&mut comparison)?;
    long::listings(&mut comparison)?;
    images::all(&mut comparison)?;
    for _ in 0..SCENES {
        comparison.scene(&mut prng)?;
    }
    tables::scenes(&mut comparison, &mut prng)?;
    kinds::scenes(&mut comparison, &mut prng)?;
    let Comparison { sides, tally, tables, kinds, demand } = comparison;
    let count = sides.count();
    let few = fewer(count, least).into_iter().collect();
    let told = format!("{tally}{tables}{kinds}{demand}");
    match [tally.gaps(), tables.gaps(), kinds.gaps(), demand.gaps(), few].concat() {
        gaps if gaps.is_empty() => {
            Ok(format!("{told}runs: {count} compared, no difference (seed {seed})"))
        }
        gaps => Err(format!("{told}runs: not all was tried: {}", gaps.join("; "))),
    }
}

pub struct Comparison {
    sides: Sides<Question>,
    tally: Tally,
    tables: Tables,
    kinds: Kinds,
    demand: Demand,
}

impl Comparison {
    fn new(seed: u64) -> Comparison {
        let demand = Demand::new("accepted listings from their start, ended with", DEMANDED);
        let (tally, tables, kinds) = (Tally::new(), Tables::new(), Kinds::new());
        Comparison { sides: Sides::new("run", seed), tally, tables, kinds, demand }
    }

    /// A program, its start, and runs with several budgets.
    fn scene(&mut self, prng: &mut Prng) -> Outcome {
        let (start, lies, mut question) = some(prng);
        self.tally.scene(start, lies);
        question.budget = ENOUGH;
        let (number, count) = self.put(&question)?;
        self.tally.steps(&question, count);
        self.demand.put(&question)?;
        for budget in budgets(prng, number, count) {
            self.tally.budget(budget, count);
            question.budget = budget;
            self.put(&question)?;
        }
        Ok(())
    }

    /// Number and count, which both sides gave.
    fn put(&mut self, question: &Question) -> Result<(u32, u32), String> {
        let answer = self.sides.put(question)?;
        self.tally.run(question, answer);
        Ok((answer.number, answer.count()))
    }

    /// The last answer.
    fn answer(&self) -> &Answer {
        self.sides.answer()
    }
}

/// A program and its start, with no budget yet.
pub fn some(prng: &mut Prng) -> (Start, Lies, Question) {
    let mut scene = scene::scene(prng);
    spoil::listing(prng, &mut scene);
    let start = start::start(prng, &mut scene);
    let lies = scene.lies;
    (start, lies, spoil::question(prng, scene))
}

/// Further budgets for a run that ended so: the largest only where that run had an end of its own.
fn budgets(prng: &mut Prng, number: u32, count: u32) -> Vec<u32> {
    let (small, fewer) = (prng.below(2), prng.below(count.max(1)));
    match (number, count) {
        (USED_UP, _) => vec![small, fewer],
        (_, 0) => vec![prng.pick(&[small, u32::MAX])],
        _ => {
            let near = prng.pick(&[count, count, count + 1, fewer, small]);
            vec![u32::MAX, count - 1, near]
        }
    }
}
