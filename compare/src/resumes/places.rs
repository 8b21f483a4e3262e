//! Resumes from everywhere, with right and wrong places: "a resume whose stored place disagrees
//! with R15 is 1 with place 0".

use super::law::Reach;
use super::stored::{self, SORTS};
use super::Comparison;
use crate::counts::Counts;
use crate::image::{self, Image};
use crate::measured::place_at;
use crate::prng::Prng;
use crate::proved;
use crate::question::resume::ROOM;
use crate::question::run;
use crate::runs::start::other;
use crate::table::FILLER;
use crate::walk::{walk, Item};
use crate::Outcome;
use std::fmt;

const FEW: u64 = 50;
const PC: usize = 15;
/// Memory above this is put by others: here it would be put again and again.
const SMALL: usize = 4_096;

pub struct Places {
    agrees: Counts<10>,
    disagrees: Counts<10>,
    odd: Counts<1>,
}

impl Places {
    pub fn new() -> Places {
        Places {
            agrees: Counts::new("resumes that agree, with", SORTS),
            disagrees: Counts::new("that disagree, with", SORTS),
            odd: Counts::new("with any place", ["and R15 odd"]),
        }
    }

    fn see(&mut self, sort: usize, reach: Reach, r15: u32) {
        match reach {
            Reach::Runs => self.agrees.add(sort),
            Reach::Disagrees => self.disagrees.add(sort),
            _ if r15 % 2 == 1 => self.odd.add(0),
            _ => (),
        }
    }

    pub fn gaps(&self) -> Vec<String> {
        let gaps = [
            self.agrees.gaps_by(|sort| stored::agreeing(sort, FEW)),
            self.disagrees.gaps_of(FEW, |sort| sort != 0),
            self.odd.gaps(FEW),
        ];
        gaps.concat()
    }
}

/// Of a listing that is accepted: R15 at each sort of site, with each sort of stored place.
pub fn put(comparison: &mut Comparison, prng: &mut Prng, run: run::Question) -> Outcome {
    let image = match Image::of(&run.image) {
        Some(image) if !run.is_none(ROOM) && run.memory.len() <= SMALL => image,
        _ => return Ok(()),
    };
    if proved::check(&run.listing, run.listing_base) != 0 {
        return Ok(());
    }
    let items: Vec<Item> = walk(&run.listing).collect();
    for (at, conditions) in sites(prng, &items) {
        let mut image = image;
        image.registers[PC] = run.listing_base.wrapping_add(at as u32);
        image.wait(&if prng.once_in(4) { other(prng, &conditions) } else { conditions });
        let budget = prng.pick(&[0, 1, 2, 5, 20]);
        let from = run::Question { image: image.bytes(), budget, ..run.clone() };
        all(comparison, prng, &from, &items)?;
    }
    Ok(())
}

/// A fresh run, and a resume with each sort of stored place.
pub fn all(
    comparison: &mut Comparison,
    prng: &mut Prng,
    run: &run::Question,
    items: &[Item],
) -> Outcome {
    comparison.begin(run)?;
    let r15 = image::register(&run.image, PC);
    let walked = place_at(&run.listing, run.listing_base, r15);
    for (sort, place) in stored::all(prng, items, run.listing.len(), walked) {
        let (reach, _) = comparison.resume(run, place)?;
        comparison.places.see(sort, reach, r15);
    }
    Ok(())
}

/// From the base, with what waits there: records outside blocks, each spot of a block, fillers,
/// inside these and inside records, the end, beside the listing, and an odd address.
fn sites(prng: &mut Prng, items: &[Item]) -> Vec<(i64, Vec<u8>)> {
    let end = items.last().map_or(0, Item::next);
    let by = 2 + 2 * i64::from(prng.below(4));
    let mut sites = vec![(end, Vec::new()), (end + by, Vec::new()), (-by, Vec::new())];
    let mut one_of = |of: &dyn Fn(&Item) -> bool, inside: bool| {
        let all: Vec<&Item> = items.iter().filter(|item| of(item)).collect();
        if all.is_empty() {
            return;
        }
        let item = prng.pick(&all);
        let halves = (item.machine_bytes / 2 - 1).max(1) as u32;
        let by = if inside { 2 + 2 * i64::from(prng.below(halves)) } else { 0 };
        sites.push((item.at + by, item.conditions.clone()));
    };
    let is_filler = |item: &Item| item.record[0] == FILLER;
    for waiting in 0..=4 {
        one_of(&|item| item.waiting() == waiting && !is_filler(item), false);
    }
    one_of(&is_filler, false);
    one_of(&|item| is_filler(item) && item.machine_bytes > 2, true);
    one_of(&|item| !is_filler(item) && item.machine_bytes > 2, true);
    if prng.once_in(8) {
        sites.push((end + 1, Vec::new()));
    }
    sites
}

impl fmt::Display for Places {
    fn fmt(&self, f: &mut fmt::Formatter<'_>) -> fmt::Result {
        writeln!(f, "{}\n{}\n{}", self.agrees, self.disagrees, self.odd)
    }
}
