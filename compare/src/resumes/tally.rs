//! How the fresh runs and resumes began and ended, and whether all that is to be tried was.

use super::demand::waits_right;
use super::law::Reach;
use crate::counts::Counts;
use crate::image;
use crate::question::resume::{Answer, Entry, Question, NONE};
use crate::site::{site, Site};
use crate::walk::Item;
use std::fmt;

/// Of each number.
const LEAST: u64 = 200;
/// Of all else.
const FEW: u64 = 50;
const PC: usize = 15;

const NUMBERS: [&str; 11] = ["0", "1", "2", "3", "4", "5", "6", "7", "8", "9", "10"];
const SITES: [&str; 11] = [
    "a record outside blocks",
    "the end",
    "the last of a block",
    "the last but one",
    "the last but two",
    "the first of four",
    "a filler",
    "inside one",
    "inside a record",
    "above",
    "below",
];
const END: usize = 1;
/// From here on the walk finds no place.
const FIRST_STRAY: usize = 6;
/// "0 the length; 10 and a refused step the record's; 8 "none", or the record's or the length where
/// only the waiting list was wrong" (S47).
const HANDED: [&str; 13] = [
    "0 the length",
    "5 a record's",
    "5 one's in a block",
    "6 a record's",
    "6 one's in a block",
    "7 a record's",
    "7 one's in a block",
    "8 none",
    "8 a record's",
    "8 one's in a block",
    "8 the length",
    "10 a record's",
    "10 one's in a block",
];

/// Fresh runs and resumes in this order, where there are two.
pub struct Tally {
    numbers: [Counts<11>; 2],
    handed: [Counts<13>; 2],
    from: Counts<11>,
    agrees: Counts<11>,
    another: Counts<11>,
    none: Counts<11>,
    waiting: Counts<11>,
    both: Counts<11>,
    /// Ends that store what they may not.
    strange: Vec<String>,
    steps: u64,
}

impl Tally {
    pub fn new() -> Tally {
        let sites = |title| Counts::new(title, SITES);
        Tally {
            numbers: ["fresh runs ended with", "resumes ended with"]
                .map(|title| Counts::new(title, NUMBERS)),
            handed: ["fresh runs stored at", "resumes stored at"]
                .map(|title| Counts::new(title, HANDED)),
            from: sites("fresh runs from"),
            agrees: sites("resumes with the place of R15, or none where it has none, at"),
            another: sites("with another place at"),
            none: sites("with none, where R15 has a place, at"),
            waiting: sites("with the place of R15, and another waiting list than the layout's, at"),
            both: sites("with neither at"),
            strange: Vec::new(),
            steps: 0,
        }
    }

    pub fn see(&mut self, question: &Question, answer: &Answer, reach: Reach, items: &[Item]) {
        let kind = usize::from(question.entry != Entry::Fresh);
        self.numbers[kind].add(answer.number as usize);
        self.steps += u64::from(answer.count());
        if matches!(reach, Reach::Barred | Reach::Refused) {
            return;
        }
        let from = row(question, &question.run.image, items);
        match (question.entry, reach) {
            (Entry::Fresh, _) => self.from.add(from),
            (Entry::Stored(NONE), Reach::Disagrees) => self.none.add(from),
            (_, Reach::Disagrees) => self.another.add(from),
            _ => self.agrees.add(from),
        }
        if kind == 1 && from < FIRST_STRAY && !waits_right(question, items) {
            let wrong = if reach == Reach::Runs { &mut self.waiting } else { &mut self.both };
            wrong.add(from);
        }
        if reach == Reach::Runs {
            self.handed(kind, answer.number, row(question, &answer.lent.image, items));
        }
    }

    fn handed(&mut self, kind: usize, number: u32, row: usize) {
        let stored = match row {
            0 => "a record's",
            END => "the length",
            FIRST_STRAY.. => "none",
            _ => "one's in a block",
        };
        let name = format!("{number} {stored}");
        match HANDED.iter().position(|&its| its == name) {
            Some(sort) => self.handed[kind].add(sort),
            None => self.strange.push(format!("an end that stores {name}")),
        }
    }

    pub fn gaps(&self) -> Vec<String> {
        let ([begun, resumed], [first, then]) = (&self.numbers, &self.handed);
        let gaps = [
            begun.gaps(LEAST),
            resumed.gaps(LEAST),
            first.gaps(FEW),
            then.gaps(FEW),
            self.from.gaps(FEW),
            self.agrees.gaps(FEW),
            self.another.gaps(FEW),
            self.none.gaps_of(FEW, |row| row < FIRST_STRAY),
            self.waiting.gaps_of(FEW, |row| row < FIRST_STRAY),
            self.both.gaps_of(FEW, |row| row < FIRST_STRAY),
            self.strange.clone(),
        ];
        gaps.concat()
    }
}

/// Which of SITES the R15 of an image is at.
fn row(question: &Question, image: &[u8], items: &[Item]) -> usize {
    match site(items, question.run.listing_base, image::register(image, PC)) {
        (Site::InBlock, Some(item)) => 1 + item.waiting(),
        (Site::Outside | Site::InBlock, _) => 0,
        (Site::End, _) => END,
        (Site::Filler, _) => 6,
        (Site::InFiller, _) => 7,
        (Site::InRecord, _) => 8,
        (Site::Above, _) => 9,
        (Site::Below, _) => 10,
    }
}

impl fmt::Display for Tally {
    fn fmt(&self, f: &mut fmt::Formatter<'_>) -> fmt::Result {
        let ([begun, resumed], [first, then]) = (&self.numbers, &self.handed);
        writeln!(f, "{begun}\n{resumed}\n{first}\n{then}")?;
        writeln!(f, "{}\n{}\n{}", self.from, self.agrees, self.another)?;
        writeln!(f, "{}\n{}\n{}", self.none, self.waiting, self.both)?;
        writeln!(f, "steps in all: {}", self.steps)
    }
}
