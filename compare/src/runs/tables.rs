//! Runs with the table branches and fillers of order 1 of paper 02.

mod code;
mod goals;
pub mod memory;
mod start;
pub mod tally;

use super::scene::{Lies, Scene};
use super::{spoil, Comparison, ENOUGH, USED_UP};
use crate::checks::listing::end_of;
use crate::image::Image;
use crate::prng::Prng;
use crate::question::run::Question;
use crate::Outcome;
use start::Start;

const SCENES: u64 = 80_000;
const BASE: u32 = 0x1000;
const TOP: i64 = 1 << 32;
const SP: usize = 13;

pub fn scenes(comparison: &mut Comparison, prng: &mut Prng) -> Outcome {
    for _ in 0..SCENES {
        scene(comparison, prng)?;
    }
    Ok(())
}

/// A program with a table branch and its start, with no budget yet.
pub fn some(prng: &mut Prng) -> (Start, Question) {
    let code = code::code(prng);
    let end = end_of(&code.records);
    let near_top = (TOP - 2 - end - 2 * i64::from(prng.below(3))) as u32;
    let base = if prng.once_in(5) { near_top } else { BASE };
    let mut image = machine(prng);
    let entries = goals::entries(prng, &code, base, &mut image);
    let (memory, memory_base) = memory::lend(prng, &code, base, &entries, &mut image);
    let start = start::start(prng, &code, base, &mut image);
    let lies = Lies::Usual;
    let scene = Scene { records: code.records, base, image, memory, memory_base, lies };
    (start, spoil::question(prng, scene))
}

/// Runs with several budgets.
fn scene(comparison: &mut Comparison, prng: &mut Prng) -> Outcome {
    let (start, mut question) = some(prng);
    question.budget = ENOUGH;
    let (number, count) = comparison.put(&question)?;
    comparison.tables.see(start, &question, comparison.sides.answer());
    comparison.demand.put(&question)?;
    for budget in budgets(number, count) {
        question.budget = budget;
        let (number, _) = comparison.put(&question)?;
        comparison.tables.budget(budget, count, number);
    }
    Ok(())
}

/// None, as many as the steps done, one less; and the most there are, where the run has an end.
fn budgets(number: u32, count: u32) -> Vec<u32> {
    match (number, count) {
        (USED_UP, _) => vec![0],
        (_, 0) => vec![0, u32::MAX],
        _ => vec![0, count, count - 1, u32::MAX],
    }
}

/// R15 and what the table branch reads are for others to set.
fn machine(prng: &mut Prng) -> Image {
    let mut image = Image::FRESH;
    for register in &mut image.registers {
        *register = prng.word() >> prng.below(32);
    }
    image.registers[SP] &= !3;
    let bits = prng.word();
    image.flags = [0, 1, 2, 3, 4].map(|bit| (bits >> bit & 1) as u8);
    image
}
