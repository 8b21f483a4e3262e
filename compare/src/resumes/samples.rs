//! The sample listings in parts: those of paper 01's program, and compiled code with table branches
//! and fillers.

use super::{cuts, Comparison};
use crate::image::Image;
use crate::prng::Prng;
use crate::question::resume::ROOM;
use crate::question::run;
use crate::runs::samples::question;
use crate::samples::{samples, with_tables, Lending};
use crate::Outcome;

const SP: usize = 13;
const PC: usize = 15;
/// At so many counts each is cut in two.
const CUTS: usize = 4;

pub fn all(comparison: &mut Comparison, prng: &mut Prng) -> Outcome {
    for sample in samples()? {
        put(comparison, prng, question(&sample.listing), &sample.end)?;
    }
    for (sample, lending) in with_tables()? {
        put(comparison, prng, lent(&sample.listing, lending), &sample.end)?;
    }
    Ok(())
}

/// "R15 is the listing's base, all else is 0."
fn lent(listing: &[u8], lending: Lending) -> run::Question {
    let mut image = Image::FRESH;
    (image.registers[SP], image.registers[PC]) = (lending.stack, lending.listing_base);
    run::Question {
        image: image.bytes(),
        listing: listing.to_vec(),
        listing_base: lending.listing_base,
        memory: lending.memory,
        memory_base: lending.memory_base,
        budget: lending.budget,
        room: ROOM,
    }
}

/// The whole run ends as samples/ has it, in its first line.
fn put(comparison: &mut Comparison, prng: &mut Prng, run: run::Question, end: &str) -> Outcome {
    let run = run::Question { room: ROOM, ..run };
    let (_, whole) = comparison.begin(&run)?;
    let (number, count) = (whole.number, whole.count());
    let first = format!("end {number} steps {count}");
    if end.lines().next() != Some(&first) {
        return Err(format!("written in samples/:\n{end}\nby both sides:\n{first}"));
    }
    let some = (0..CUTS).map(|_| prng.below(count));
    for at in [count - 1, count].into_iter().chain(some) {
        cuts::cut(comparison, &run, &whole, at)?;
    }
    let links = [0, 1, 2, count / 3, count / 5, count / 7];
    cuts::chain(comparison, prng, &run, &whole, &links)
}
