//! Checks of listings: the number and the place.

pub mod base;
mod ends;
pub mod fault;
mod fillers;
mod fixed;
pub mod listing;
pub mod long;
mod samples;
mod tally;

use crate::counts::fewer;
use crate::prng::Prng;
use crate::{hex, proved, random_record, Outcome};
use listing::{accepted, end_of};
use tally::Tally;

pub const SEED: u64 = 0xC4EC_2026;
const LISTINGS: usize = 100_000;
/// Where a listing of any length fits.
const BASE: u32 = 0x1000;

pub fn run(least: u64, seed: u64) -> Result<String, String> {
    let mut comparison = Comparison { seed, tally: Tally::new() };
    let mut prng = Prng::new(seed);
    fixed::empty(&mut comparison)?;
    fixed::reaches(&mut comparison)?;
    fixed::ends(&mut comparison)?;
    samples::all(&mut comparison, &mut prng)?;
    long::listings(&mut comparison, &mut prng)?;
    for _ in 0..LISTINGS {
        random(&mut comparison, &mut prng)?;
    }
    fillers::listings(&mut comparison, &mut prng)?;
    let (tally, listings) = (&comparison.tally, comparison.tally.listings());
    match tally.gaps().into_iter().chain(fewer(listings, least)).collect::<Vec<_>>() {
        gaps if gaps.is_empty() => {
            Ok(format!("{tally}checks: {listings} listings compared, no difference (seed {seed})"))
        }
        gaps => Err(format!("{tally}checks: not as the papers have it: {}", gaps.join("; "))),
    }
}

pub struct Comparison {
    seed: u64,
    tally: Tally,
}

impl Comparison {
    /// Gives the number that both sides gave.
    pub fn put(&mut self, listing: &[u8], base: u32) -> Result<u32, String> {
        let (number, place) = second::check::check(listing, base);
        let second = u64::from(number) + (u64::from(place) << 32);
        let proved = proved::check(listing, base);
        if proved != second {
            return Err(self.differs(listing, base, [proved, second]));
        }
        self.tally.check(listing, base, (number, place));
        Ok(number)
    }

    #[cold]
    fn differs(&self, listing: &[u8], base: u32, answers: [u64; 2]) -> String {
        let which = format!("listing {} of seed {}", self.tally.listings() + 1, self.seed);
        let bytes = format!("{} bytes: {}", listing.len(), hex::line(listing));
        let [proved, second] =
            answers.map(|answer| format!("{} at {}", answer as u32, answer >> 32));
        let question = format!("difference: {which}, base 0x{base:08X}\n{bytes}");
        format!("{question}\nproved {proved}\nsecond {second}")
    }
}

/// A listing that is accepted; then the same elsewhere, and mostly with up to three mistakes in it.
fn random(comparison: &mut Comparison, prng: &mut Prng) -> Outcome {
    let count = match prng.below(4) {
        0 => prng.below(4),
        1 => prng.below(10),
        _ => prng.below(40),
    };
    let mut records = accepted(prng, count as usize);
    if comparison.put(&records.concat(), BASE)? != 0 {
        let bytes = hex::line(&records.concat());
        return Err(format!("a listing is refused that was made to be accepted: {bytes}"));
    }
    for _ in 0..prng.pick(&[0, 0, 1, 1, 1, 2, 3]) {
        fault::make(prng, &mut records);
    }
    let mut bytes = records.concat();
    if prng.once_in(6) {
        random_record::damage(prng, &mut bytes);
    }
    comparison.put(&bytes, base::base(prng, end_of(&records)))?;
    Ok(())
}
