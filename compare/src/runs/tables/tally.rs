//! Where the table branches of the runs led, and how these began and ended.

use super::start::{Start, STARTS};
use crate::counts::Counts;
use crate::image;
use crate::question::run::{Answer, Question};
use crate::runs::trace::{trace, Look};
use crate::site::site;
use crate::table::{FILLER, TABLE_BRANCH};
use crate::walk::{walk, Item};
use second::machine::Machine;
use std::fmt;

/// Of each case.
const LEAST: u64 = 500;
const NUMBERS: [&str; 5] = ["0", "6", "8", "10", "another"];
/// By site. No listing passes 2^32, so what is below its base does.
const LED: [&str; 8] = [
    "a record outside blocks",
    "the end",
    "a filler",
    "into a filler",
    "a record in a block",
    "into a record",
    "past the end",
    "past 2^32",
];
/// From here on the run ends with 8.
const FIRST_STRAY: usize = 2;
const STRAY: u32 = 8;
const OUTSIDE: u32 = 6;
const SIGHTS: [&str; 9] = [
    "passed in a block",
    "failed in a block",
    "from Rn 15",
    "with Rn = Rm",
    "by a sum past 2^32",
    "by entry 0",
    "of a halfword, unaligned",
    "of the first byte of memory",
    "of the last",
];
const MISSED: [&str; 6] = [
    "before memory",
    "past it",
    "of a halfword, its first byte before memory",
    "of one, its second past it",
    "in none",
    "from Rn 15",
];
const BEGAN: [&str; 4] =
    ["8 at a filler", "8 inside one", "8 at one that is first in the listing", "behind one"];
const BUDGETS: [&str; 10] = [
    "0 ends with 0", "0 with 8", "0 with 10", "its count with 0", "its count with 8",
    "its count with 10", "one less with 10", "4294967295 with 0", "4294967295 with 6",
    "4294967295 with 8",
];
const PC: usize = 15;

pub struct Tables {
    numbers: Counts<5>,
    starts: Counts<6>,
    began: Counts<4>,
    /// By op.
    led: [Counts<8>; 2],
    sights: Counts<9>,
    missed: Counts<6>,
    budgets: Counts<10>,
}

/// A table branch that is to be stepped: where its entry is.
struct Entry {
    first: u64,
    past: u64,
    wraps: bool,
}

impl Entry {
    fn new(machine: &Machine, record: &[u8]) -> Entry {
        let (op, rn, rm) = (record[1], record[3], record[4]);
        let table = u64::from(machine.operand(rn));
        let sum = table + u64::from(machine.get(rm) << op);
        let first = sum % (1 << 32);
        Entry { first, past: first + 1 + u64::from(op), wraps: sum != first }
    }
}

impl Tables {
    pub fn new() -> Tables {
        let led = ["TBB led to", "TBH led to"].map(|title| Counts::new(title, LED));
        Tables {
            numbers: Counts::new("with table branches, ended with", NUMBERS),
            starts: Counts::new("with table branches, began", STARTS.map(|(_, name)| name)),
            began: Counts::new("with fillers, began", BEGAN),
            led,
            sights: Counts::new("table branches", SIGHTS),
            missed: Counts::new("6 for an entry", MISSED),
            budgets: Counts::new("with table branches, a budget of", BUDGETS),
        }
    }

    /// A run with steps enough, and the answer that both sides gave.
    pub fn see(&mut self, start: Start, question: &Question, answer: &Answer) {
        let number = answer.number;
        self.starts.add(start as usize);
        let name = number.to_string();
        self.numbers.add(NUMBERS.iter().position(|&its| its == name).unwrap_or(4));
        let items: Vec<Item> = walk(&question.listing).collect();
        self.began(start, question, answer);
        trace(question, answer.count(), |look| {
            if look.record[0] == TABLE_BRANCH {
                self.stepped(question, &items, look, number);
            }
        });
        if let (OUTSIDE, Some([_, place, _])) = (number, answer.ran()) {
            let at = items.partition_point(|item| item.place < place as usize);
            let machine = second::image::decode(&answer.lent.image);
            if let (Some(item), Some(machine)) = (items.get(at), machine) {
                self.missed(question, item.record, &machine);
            }
        }
    }

    fn began(&mut self, start: Start, question: &Question, answer: &Answer) {
        let strayed = answer.number == STRAY && answer.count() == 0;
        // an image that is none may have no R15
        let first = strayed
            && question.listing.first() == Some(&FILLER)
            && image::register(&question.image, PC) == question.listing_base;
        match start {
            _ if first => self.began.add(2),
            Start::AtFiller if strayed => self.began.add(0),
            Start::InFiller if strayed => self.began.add(1),
            Start::BehindFiller if answer.count() > 0 => self.began.add(3),
            _ => (),
        }
    }

    fn stepped(&mut self, question: &Question, items: &[Item], look: &Look, number: u32) {
        let before = look.before;
        let waits = before.waiting.first();
        let passed = waits.map_or(true, |condition| before.passes(condition));
        if waits.is_some() {
            self.sights.add(usize::from(!passed));
        }
        if !passed {
            return;
        }
        let (op, rn, rm) = (look.record[1], look.record[3], look.record[4]);
        let entry = Entry::new(before, look.record);
        let base = u64::from(question.memory_base);
        let seen = [
            rn == 15,
            rn == rm,
            entry.wraps,
            look.after.address() == look.next,
            op == 1 && entry.first % 2 == 1,
            entry.first == base,
            entry.past == base + question.memory.len() as u64,
        ];
        for (sort, _) in seen.iter().enumerate().filter(|(_, &seen)| seen) {
            self.sights.add(2 + sort);
        }
        let led = site(items, question.listing_base, look.after.address()).0 as usize;
        if led < FIRST_STRAY || number == STRAY {
            self.led[usize::from(op)].add(led);
        }
    }

    /// A table branch that was refused.
    fn missed(&mut self, question: &Question, record: &[u8], machine: &Machine) {
        if record[0] != TABLE_BRANCH {
            return;
        }
        let (entry, base) = (Entry::new(machine, record), u64::from(question.memory_base));
        let end = base + question.memory.len() as u64;
        self.missed.add(match entry {
            _ if base == end => 4,
            Entry { past, .. } if past <= base => 0,
            Entry { first, .. } if first >= end => 1,
            Entry { first, .. } if first < base => 2,
            _ => 3,
        });
        if record[3] == 15 {
            self.missed.add(5);
        }
    }

    /// A run of which it is known how many steps it takes where it has enough.
    pub fn budget(&mut self, budget: u32, count: u32, number: u32) {
        let name = match budget {
            0 => "0",
            u32::MAX => "4294967295",
            _ if budget == count => "its count",
            _ => "one less",
        };
        let names = [format!("{name} with {number}"), format!("{name} ends with {number}")];
        if let Some(sort) = BUDGETS.iter().position(|its| names.iter().any(|name| name == its)) {
            self.budgets.add(sort);
        }
    }

    pub fn gaps(&self) -> Vec<String> {
        let [tbb, tbh] = &self.led;
        let gaps = [
            self.numbers.gaps(LEAST),
            self.starts.gaps(LEAST),
            self.began.gaps(LEAST),
            tbb.gaps(LEAST),
            tbh.gaps(LEAST),
            self.sights.gaps(LEAST),
            self.missed.gaps(LEAST),
            self.budgets.gaps(LEAST),
        ];
        gaps.concat()
    }
}

impl fmt::Display for Tables {
    fn fmt(&self, f: &mut fmt::Formatter<'_>) -> fmt::Result {
        let [tbb, tbh] = &self.led;
        writeln!(f, "{}\n{}\n{}", self.numbers, self.starts, self.began)?;
        writeln!(f, "{tbb}\n{tbh}\n{}", self.sights)?;
        writeln!(f, "{}\n{}", self.missed, self.budgets)
    }
}
