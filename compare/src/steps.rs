//! Steps at random: the number, the machine's image and every byte of memory.

pub mod aim;
mod ends;
mod fillers;
mod fixed;
mod large;
mod record;
mod reversals;
pub mod scene;
mod shifts;
mod sights;
mod spoil;
mod table_sights;
mod tables;
mod tally;

use crate::counts::fewer;
use crate::prng::Prng;
use crate::question::step::Question;
use crate::question::Sides;
use crate::stock::{self, stock, Stock};
use crate::Outcome;
use tally::Tally;

pub const SEED: u64 = 0x57E9_2026;
const STEPS: u64 = 2_000_000;
/// Of kind 03 alone.
const SHIFTS: u64 = 250_000;
/// Of RBIT alone.
const REVERSALS: u64 = 200_000;
/// With memory of any length, also at its limit, which takes long to compare.
const LARGE: u64 = 4_000;
/// Of kind 16 alone.
const TABLES: u64 = 250_000;
/// Of kind 17 alone.
const FILLERS: u64 = 30_000;

pub fn run(least: u64, seed: u64) -> Result<String, String> {
    let (mut prng, stock) = (Prng::new(seed), stock());
    let later = [stock::tables(), stock::fillers()].concat();
    let tally = Tally::new(&[&stock[..], &later].concat());
    let mut comparison = Comparison { sides: Sides::new("step", seed), tally };
    fixed::images(&mut comparison)?;
    fixed::records(&mut comparison, &stock)?;
    for _ in 0..STEPS {
        comparison.put(&question(&mut prng, &stock))?;
    }
    for _ in 0..SHIFTS {
        comparison.put(&shifts::question(&mut prng))?;
    }
    for _ in 0..LARGE {
        comparison.put(&large::question(&mut prng, &stock))?;
    }
    for _ in 0..REVERSALS {
        comparison.put(&reversals::question(&mut prng))?;
    }
    fixed::records(&mut comparison, &later)?;
    for _ in 0..TABLES {
        comparison.put(&tables::question(&mut prng))?;
    }
    for _ in 0..FILLERS {
        comparison.put(&fillers::question(&mut prng))?;
    }
    let (tally, count) = (comparison.tally, comparison.sides.count());
    match tally.gaps().into_iter().chain(fewer(count, least)).collect::<Vec<_>>() {
        gaps if gaps.is_empty() => {
            Ok(format!("{tally}steps: {count} compared, no difference (seed {seed})"))
        }
        gaps => Err(format!("{tally}steps: not as the papers have it: {}", gaps.join("; "))),
    }
}

pub struct Comparison {
    sides: Sides<Question>,
    tally: Tally,
}

impl Comparison {
    fn put(&mut self, question: &Question) -> Outcome {
        let answer = self.sides.put(question)?;
        self.tally.step(question, answer);
        Ok(())
    }
}

fn question(prng: &mut Prng, stock: &Stock) -> Question {
    let record = record::record(prng, stock);
    let mut scene = scene::scene(prng);
    aim::aim(prng, &record, &mut scene);
    spoil::question(prng, record, scene)
}
