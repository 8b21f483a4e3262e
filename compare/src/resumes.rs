//! Runs of a running machine, order 6 of paper 02: fresh runs and resumes. Number, place, count and
//! stored place, the machine's image and every byte of memory.

mod after;
mod cuts;
mod demand;
mod faults;
mod fixed;
mod law;
mod places;
mod refused;
mod samples;
mod stored;
mod tally;

use crate::counts::fewer;
use crate::image::Image;
use crate::prng::Prng;
use crate::question::resume::{Answer, Entry, Question, NONE, ROOM};
use crate::question::{run, Sides};
use crate::runs::demand::Demand;
use crate::runs::{self, tables};
use crate::walk::{walk, Item};
use crate::Outcome;
use after::After;
use cuts::Cuts;
use law::{Law, Reach};
use places::Places;
use refused::Refused;
use tally::Tally;

pub const SEED: u64 = 0x4E5C_2026;
/// The fewest resumes that demand 3 is to be tried with.
const DEMANDED: u64 = 40_000;
const USED_UP: u32 = 10;
const PC: usize = 15;
/// How often each part is put.
const CUT: u64 = 9_000;
const PLACED: u64 = 2_500;
const ENDED: u64 = 12_000;
const REFUSED: u64 = 6_000;

pub fn run(least: u64, seed: u64) -> Result<String, String> {
    let (mut prng, mut comparison) = (Prng::new(seed), Comparison::new(seed));
    fixed::all(&mut comparison, &mut prng)?;
    samples::all(&mut comparison, &mut prng)?;
    for (times, part) in PARTS {
        for _ in 0..times {
            let run = some(&mut prng);
            part(&mut comparison, &mut prng, run)?;
        }
    }
    let count = comparison.sides.count();
    let few = fewer(count, least).into_iter().collect();
    match [comparison.gaps(), few].concat() {
        gaps if gaps.is_empty() => {
            Ok(format!("{comparison}resumes: {count} compared, no difference (seed {seed})"))
        }
        gaps => Err(format!("{comparison}resumes: not all was tried: {}", gaps.join("; "))),
    }
}

type Part = fn(&mut Comparison, &mut Prng, run::Question) -> Outcome;

const PARTS: [(u64, Part); 4] =
    [(CUT, cuts::put), (PLACED, places::put), (ENDED, after::put), (REFUSED, refused::put)];

/// A program and its start as runs have them, at times with a step that is refused, and with no
/// budget yet. What is a room of another length there has to be one here too.
fn some(prng: &mut Prng) -> run::Question {
    let mut run = if prng.once_in(3) { tables::some(prng).1 } else { runs::some(prng).2 };
    if prng.once_in(4) {
        faults::put(prng, &mut run);
    }
    let room = match run.room {
        run::ROOM => ROOM,
        ROOM => run::ROOM,
        other => other,
    };
    run::Question { room, ..run }
}

/// Mostly from the base, for all that comes of a program comes from there.
fn started(prng: &mut Prng, run: &mut run::Question) {
    if let Some(mut image) = Image::of(&run.image).filter(|_| !prng.once_in(4)) {
        image.registers[PC] = run.listing_base;
        image.wait(&[]);
        run.image = image.bytes();
    }
}

/// A resume with what a run that began has left and stored.
fn resumed(run: &run::Question, answer: &Answer, budget: u32) -> Question {
    let (image, memory) = (answer.lent.image.clone(), answer.lent.memory.clone());
    let run = run::Question { image, memory, budget, listing: run.listing.clone(), ..*run };
    Question { run, entry: Entry::Stored(answer.stored().unwrap_or(NONE)) }
}

pub struct Comparison {
    sides: Sides<Question>,
    law: Law,
    demand: Demand,
    tally: Tally,
    cuts: Cuts,
    places: Places,
    after: After,
    refused: Refused,
}

impl Comparison {
    fn new(seed: u64) -> Comparison {
        Comparison {
            sides: Sides::new("resume", seed),
            law: Law::new(),
            demand: Demand::new("resumes that demand 3 takes, ended with", DEMANDED),
            tally: Tally::new(),
            cuts: Cuts::new(),
            places: Places::new(),
            after: After::new(),
            refused: Refused::new(),
        }
    }

    /// The answer that both sides gave, and how far the question came.
    fn put(&mut self, question: &Question) -> Result<(Reach, Answer), String> {
        let answer = self.sides.put(question)?;
        let reach = self.law.hold(question, answer)?;
        let items: Vec<Item> = walk(&question.run.listing).collect();
        self.tally.see(question, answer, reach, &items);
        if demand::takes(question, reach, &items) {
            demand::hold(&mut self.demand, question, answer)?;
        }
        Ok((reach, answer.clone()))
    }

    fn begin(&mut self, run: &run::Question) -> Result<(Reach, Answer), String> {
        self.put(&Question { run: run.clone(), entry: Entry::Fresh })
    }

    fn resume(&mut self, run: &run::Question, stored: u32) -> Result<(Reach, Answer), String> {
        self.put(&Question { run: run.clone(), entry: Entry::Stored(stored) })
    }

    fn gaps(&self) -> Vec<String> {
        let gaps = [
            self.demand.gaps(),
            self.tally.gaps(),
            self.cuts.gaps(),
            self.places.gaps(),
            self.after.gaps(),
            self.refused.gaps(),
        ];
        gaps.concat()
    }
}

impl std::fmt::Display for Comparison {
    fn fmt(&self, f: &mut std::fmt::Formatter<'_>) -> std::fmt::Result {
        let Comparison { demand, tally, cuts, places, after, refused, .. } = self;
        write!(f, "{tally}{cuts}{places}{after}{refused}{demand}")
    }
}
