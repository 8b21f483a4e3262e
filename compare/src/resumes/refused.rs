//! What is refused before a stored place is looked at: by the tests, and by the check. "fresh run
//! "none", resume as given" (S47).

use super::law::Reach;
use super::Comparison;
use crate::checks::fault;
use crate::checks::listing::Records;
use crate::counts::Counts;
use crate::image::{register, Image};
use crate::measured::place_at;
use crate::memory_length::LIMIT;
use crate::prng::Prng;
use crate::question::resume::{NONE, ROOM};
use crate::question::run;
use crate::walk::{end_of, walk};
use crate::{proved, unfit, Outcome};
use std::fmt;

/// Of each sort with each entry.
const FEW: u64 = 20;
const PC: usize = 15;
const TOP: i64 = 1 << 32;
/// One byte more than a listing may have.
const LONG: usize = 65_537;
const SORTS: [&str; 12] = [
    "a machine that is not good",
    "an image that is none",
    "a room of another length",
    "memory over its limit",
    "memory past 2^32",
    "check 1 for the base",
    "check 1 for the length",
    "check 1 for the end",
    "check 2",
    "check 3",
    "check 4",
    "check 9",
];
const ENTRIES: [&str; 4] = [
    "fresh runs refused",
    "resumes refused, with the place of R15",
    "resumes refused, with another",
    "resumes refused, with none",
];

pub struct Refused([Counts<12>; 4]);

impl Refused {
    pub fn new() -> Refused {
        Refused(ENTRIES.map(|title| Counts::new(title, SORTS)))
    }

    pub fn gaps(&self) -> Vec<String> {
        self.0.iter().flat_map(|counts| counts.gaps(FEW)).collect()
    }
}

/// One thing is spoilt; then a fresh run, and resumes with the place that R15 would have, with
/// another and with none.
pub fn put(comparison: &mut Comparison, prng: &mut Prng, run: run::Question) -> Outcome {
    let mut run = run::Question { budget: prng.pick(&[0, 1, 20]), ..run };
    // long ones take long
    let rare = prng.once_in(8);
    let sort = match prng.below(if rare { 10 } else { 8 }) {
        0 => machine(prng, &mut run),
        1 => image(prng, &mut run),
        2 => room(prng, &mut run),
        3 => past_the_top(prng, &mut run),
        4 => base(prng, &mut run),
        8 => {
            run.memory.resize(LIMIT + 1, 0);
            Some(3)
        }
        9 => {
            run.listing.resize(LONG, 0);
            Some(6)
        }
        _ => listing(prng, &mut run),
    };
    let (reach, _) = comparison.begin(&run)?;
    let sort = match (sort, reach) {
        (Some(sort), Reach::Refused | Reach::Barred) => sort,
        _ => return Ok(()),
    };
    comparison.refused.0[0].add(sort);
    let place = match Image::of(&run.image) {
        // an odd base leads to no record
        Some(_) => place_at(&run.listing, run.listing_base & !1, register(&run.image, PC)),
        None => 0,
    };
    let another = prng.pick(&[place ^ 2, place.wrapping_sub(1), run.listing.len() as u32, 65_536]);
    for stored in [place, another, NONE] {
        comparison.resume(&run, stored)?;
        let entry = match stored {
            _ if stored == place => 1,
            NONE => 3,
            _ => 2,
        };
        comparison.refused.0[entry].add(sort);
    }
    Ok(())
}

/// Gives the sort; None where there is nothing to spoil.
fn machine(prng: &mut Prng, run: &mut run::Question) -> Option<usize> {
    let mut image = Image::of(&run.image)?;
    unfit::machine(prng, &mut image);
    run.image = image.bytes();
    // a condition above 14 is no image
    Some(usize::from(Image::of(&run.image).is_none()))
}

fn image(prng: &mut Prng, run: &mut run::Question) -> Option<usize> {
    Image::of(&run.image)?;
    unfit::image(prng, &mut run.image);
    Some(1)
}

fn room(prng: &mut Prng, run: &mut run::Question) -> Option<usize> {
    run.room = prng.pick(&[0, 4, 12, ROOM - 1, ROOM + 1, 20, 32]);
    Some(2)
}

fn past_the_top(prng: &mut Prng, run: &mut run::Question) -> Option<usize> {
    run.memory_base = unfit::past_the_top(prng, run.memory.len() as u32)?;
    Some(4)
}

/// An odd base, and one from which the end is just above 0xFFFFFFFE; R15 goes along.
fn base(prng: &mut Prng, run: &mut run::Question) -> Option<usize> {
    let mut image = Image::of(&run.image)?;
    let too_high = (TOP - end_of(&run.listing) + 2 * i64::from(prng.below(2))) as u32;
    let odd = prng.once_in(2);
    let base = if odd { run.listing_base | 1 } else { too_high };
    let by = base.wrapping_sub(run.listing_base) & !1;
    image.registers[PC] = image.registers[PC].wrapping_add(by);
    (run.listing_base, run.image) = (base, image.bytes());
    Some(if odd { 5 } else { 7 })
}

/// Mistakes until the check refuses.
fn listing(prng: &mut Prng, run: &mut run::Question) -> Option<usize> {
    for _ in 0..8 {
        let mut records: Records = walk(&run.listing).map(|item| item.record.to_vec()).collect();
        fault::make(prng, &mut records);
        run.listing = records.concat();
        match proved::check(&run.listing, run.listing_base) as u32 {
            number @ 2..=4 => return Some(6 + number as usize),
            9 => return Some(11),
            _ => (),
        }
    }
    None
}

impl fmt::Display for Refused {
    fn fmt(&self, f: &mut fmt::Formatter<'_>) -> fmt::Result {
        for counts in &self.0 {
            writeln!(f, "{counts}")?;
        }
        Ok(())
    }
}
