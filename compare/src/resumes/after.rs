//! Resumes after each end, also with something else in place of what was left (S50).

mod change;

use super::law::Reach;
use super::{resumed, started, Comparison, USED_UP};
use crate::counts::Counts;
use crate::image;
use crate::measured::place_at;
use crate::prng::Prng;
use crate::question::resume::{Answer, Entry, Question};
use crate::question::run;
use crate::Outcome;
use change::{Change, CHANGES};
use std::fmt;

const FEW: u64 = 20;
const PC: usize = 15;
const ENDS: [u32; 6] = [0, 5, 6, 7, 8, 10];
/// What must have been gone on from, with steps done.
const WENT_ON: [&str; 17] = [
    "0, R15 put back",
    "0, another listing",
    "5, a register mended",
    "5, another listing",
    "6, a register mended",
    "6, another listing",
    "6, another memory",
    "7, a register mended",
    "7, another listing",
    "7, another memory",
    "8, R15 put back",
    "10, as it was left",
    "10, R15 put back",
    "10, a register mended",
    "10, another listing",
    "10, another base",
    "10, another memory",
];

pub struct After {
    ends: [Counts<6>; 6],
    refused: Counts<6>,
    went_on: Counts<17>,
}

impl After {
    pub fn new() -> After {
        let titles = [
            "resumes after 0", "resumes after 5", "resumes after 6", "resumes after 7",
            "resumes after 8", "resumes after 10",
        ];
        let names = CHANGES.map(|(_, name)| name);
        After {
            ends: titles.map(|title| Counts::new(title, names)),
            refused: Counts::new("disagreed after an end", names),
            went_on: Counts::new("went on after", WENT_ON),
        }
    }

    fn see(&mut self, end: usize, change: Change, reach: Reach, answer: &Answer) {
        let sort = change as usize;
        self.ends[end].add(sort);
        if reach == Reach::Disagrees {
            self.refused.add(sort);
        }
        let name = format!("{}, {}", ENDS[end], CHANGES[sort].1);
        let went_on = WENT_ON.iter().position(|&its| its == name && answer.count() > 0);
        if let Some(sort) = went_on {
            self.went_on.add(sort);
        }
    }

    /// What was left, and another memory, agree.
    pub fn gaps(&self) -> Vec<String> {
        let agree = [Change::Nothing as usize, Change::Register as usize, Change::Memory as usize];
        let ends = self.ends.iter().flat_map(|end| end.gaps(FEW));
        let refused = self.refused.gaps_of(FEW, |sort| !agree.contains(&sort));
        ends.chain(refused).chain(self.went_on.gaps(FEW)).collect()
    }
}

/// A run to some end; then, with each change, a resume with what was stored, and where that
/// disagrees one with the place that R15 has now.
pub fn put(comparison: &mut Comparison, prng: &mut Prng, mut run: run::Question) -> Outcome {
    started(prng, &mut run);
    run.budget = prng.pick(&[3, 8, 25, 60]);
    let (reach, end) = comparison.begin(&run)?;
    let sort = match ENDS.iter().position(|&number| number == end.number) {
        Some(sort) if reach == Reach::Runs => sort,
        _ => return Ok(()),
    };
    for (change, _) in CHANGES {
        let mut question = resumed(&run, &end, prng.pick(&[0, 1, 3, 20]));
        change::make(prng, change, &mut question.run, end.stored());
        let (reach, answer) = comparison.put(&question)?;
        comparison.after.see(sort, change, reach, &answer);
        if change == Change::Nothing {
            same(&question, &end, &answer)?;
        }
        if reach == Reach::Disagrees {
            let Question { run, entry } = &mut question;
            let r15 = image::register(&run.image, PC);
            *entry = Entry::Stored(place_at(&run.listing, run.listing_base, r15));
            let (reach, answer) = comparison.put(&question)?;
            comparison.after.see(sort, change, reach, &answer);
        }
    }
    Ok(())
}

/// As it was left, an end other than 10 comes again at once; a refused step needs a step's budget
/// for it.
fn same(question: &Question, end: &Answer, then: &Answer) -> Outcome {
    let again = match end.number {
        USED_UP => return Ok(()),
        5..=7 if question.run.budget == 0 => [USED_UP, 0, 0],
        _ => end.ran().map_or([0; 3], |[number, place, _]| [number, place, 0]),
    };
    if then.ran() == Some(again) && then.lent == end.lent && then.stored() == end.stored() {
        return Ok(());
    }
    Err(format!("an end does not come again:\n{question}\nit was {end}\nand then {then}"))
}

impl fmt::Display for After {
    fn fmt(&self, f: &mut fmt::Formatter<'_>) -> fmt::Result {
        for end in &self.ends {
            writeln!(f, "{end}")?;
        }
        writeln!(f, "{}\n{}", self.refused, self.went_on)
    }
}
