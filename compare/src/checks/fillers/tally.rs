//! What must have been among the checks of listings with fillers and table branches.

use super::led::Led;
use super::sorts::{sort_of, IT, LAST_OF_BLOCK, NAMES, REFUSED, SORT_OF_FILLER};
use crate::counts::Counts;
use crate::table::{FILLER, TABLE_BRANCH};
use crate::walk::{walk, Item};
use std::fmt;

/// Of each case.
const LEAST: u64 = 1_000;
const NUMBERS: [&str; 10] = [
    "0", "1 at place 0", "1 at the end", "2 at a filler", "2 elsewhere", "3", "4 at a filler",
    "4 elsewhere", "4 at the end", "9",
];
/// "or first in the listing".
const FIRST: usize = SORT_OF_FILLER + 1;
const MAY_STAND: [&str; 7] =
    ["B", "BX", "TBB", "TBH", "filler", "nothing", "any of these as the last record"];
const LAST: usize = FIRST + 1;
const IN_BLOCK: [&str; 4] = ["IT, as its last", "IT", "another, as its last", "another"];
const ILL_FORMED: [&str; 6] =
    ["0", "65,535", "another odd number", "cut to 1 byte", "cut to 2", "also where none may stand"];
const ENDS: [&str; 4] =
    ["accepted at FFFFFFFC", "accepted at FFFFFFFE", "refused at 2^32", "refused above"];
const TABLES: [&str; 13] = [
    "TBB accepted outside blocks",
    "TBB accepted as the last of a block",
    "TBB 4 before the last of one",
    "TBB 3 outside",
    "TBB 3 as the last",
    "TBB 3 before it",
    "TBH accepted outside blocks",
    "TBH accepted as the last of a block",
    "TBH 4 before the last of one",
    "TBH 3 outside",
    "TBH 3 as the last",
    "TBH 3 before it",
    "2",
];
const OF_AN_OP: usize = 6;
const MALFORMED_TABLE: usize = 12;
const TOP: i64 = 1 << 32;
const FAR: i64 = 1 << 30;
/// Of those that take long.
const FEW: u64 = 2;
const AL: u8 = 14;

pub struct Fillers {
    numbers: Counts<10>,
    accepted: Counts<7>,
    /// By all sorts; a filler behind IT is in a block.
    outside: Counts<{ NAMES.len() }>,
    /// Of a block with another condition, and of one with AL.
    last: [Counts<{ NAMES.len() }>; 2],
    in_block: Counts<4>,
    ill_formed: Counts<6>,
    ends: Counts<4>,
    far: Counts<2>,
    tables: Counts<13>,
    led: Led,
}

impl Fillers {
    pub fn new() -> Fillers {
        let behind_last = "4 at a filler behind the last of a block";
        Fillers {
            numbers: Counts::new("listings with fillers", NUMBERS),
            accepted: Counts::new("accepted with a filler behind", MAY_STAND),
            outside: Counts::new("4 at a filler behind, outside blocks", NAMES),
            last: [behind_last, "the same with AL"].map(|title| Counts::new(title, NAMES)),
            in_block: Counts::new("4 at a filler in a block, behind", IN_BLOCK),
            ill_formed: Counts::new("2 at a filler", ILL_FORMED),
            ends: Counts::new("with fillers, by the end address", ENDS),
            far: Counts::new("of fillers, above 2^30 machine bytes", ["accepted", "1 at the end"]),
            tables: Counts::new("table branches", TABLES),
            led: Led::new(),
        }
    }

    /// With the number and the place that both sides gave.
    pub fn see(&mut self, listing: &[u8], base: u32, number: u32, place: usize) {
        if !listing.iter().any(|byte| matches!(*byte, TABLE_BRANCH | FILLER)) {
            return;
        }
        let items: Vec<Item> = walk(listing).collect();
        let at = items.partition_point(|item| item.place < place);
        let here = listing.get(place).copied();
        self.tables(&items, at, number, here);
        let malformed = number == 2 && here == Some(FILLER);
        if malformed || items.iter().any(|item| item.record[0] == FILLER) {
            self.numbers(listing.len(), number, place, here);
            self.end(&items, base, number, place);
            match number {
                0 => self.accepted(&items),
                2 if malformed => self.ill_formed(&items, &listing[place..]),
                4 if here == Some(FILLER) => self.misplaced(&items, at),
                _ => (),
            }
            self.led.see(&items, at, number);
        }
    }

    fn numbers(&mut self, length: usize, number: u32, place: usize, here: Option<u8>) {
        let at_filler = here == Some(FILLER);
        self.numbers.add(match number {
            0 => 0,
            1 if place == 0 => 1,
            1 => 2,
            2 => 3 + usize::from(!at_filler),
            3 => 5,
            4 if place == length => 8,
            4 => 6 + usize::from(!at_filler),
            _ => 9,
        });
    }

    fn end(&mut self, items: &[Item], base: u32, number: u32, place: usize) {
        let span = items.last().map_or(0, Item::next);
        match (number, span > FAR) {
            (0, true) => self.far.add(0),
            (1, true) if place > 0 => self.far.add(1),
            _ => (),
        }
        match (number, i64::from(base) + span - TOP) {
            (0, -4) => self.ends.add(0),
            (0, -2) => self.ends.add(1),
            (1, 0) if place > 0 => self.ends.add(2),
            (1, _) if place > 0 => self.ends.add(3),
            _ => (),
        }
    }

    fn accepted(&mut self, items: &[Item]) {
        for (at, _) in items.iter().enumerate().filter(|(_, item)| item.record[0] == FILLER) {
            self.accepted.add(match at {
                0 => FIRST,
                _ => sort_of(items[at - 1].record),
            });
        }
        if items.last().map_or(false, |item| item.record[0] == FILLER) {
            self.accepted.add(LAST);
        }
    }

    fn ill_formed(&mut self, items: &[Item], rest: &[u8]) {
        self.ill_formed.add(match *rest {
            [_, 0, 0, ..] => 0,
            [_, 0xFF, 0xFF, ..] => 1,
            [_, _, _, ..] => 2,
            [_, _] => 4,
            _ => 3,
        });
        if let Some(item) = items.last() {
            if item.waiting() > 0 || sort_of(item.record) >= REFUSED {
                self.ill_formed.add(5);
            }
        }
    }

    /// A filler that is a record, behind another.
    fn misplaced(&mut self, items: &[Item], at: usize) {
        let (filler, before) = match items[..=at] {
            [.., ref before, ref filler] => (filler, before),
            _ => return,
        };
        let sort = sort_of(before.record);
        match (filler.waiting(), before.waiting()) {
            (0, 0) => self.outside.add(sort),
            (0, _) => self.last[usize::from(condition(&items[..at]) == AL)].add(sort),
            (waiting, _) => {
                let row = if sort == IT { 0 } else { 2 };
                self.in_block.add(row + usize::from(waiting > 1));
            }
        }
    }

    fn tables(&mut self, items: &[Item], at: usize, number: u32, here: Option<u8>) {
        if number == 0 {
            for item in items.iter().filter(|item| item.record[0] == TABLE_BRANCH) {
                self.table(item, usize::from(item.waiting() > 0));
            }
        }
        match (number, here, items.get(at)) {
            (2, Some(TABLE_BRANCH), _) => self.tables.add(MALFORMED_TABLE),
            (3, Some(TABLE_BRANCH), Some(item)) => self.table(item, 3 + item.waiting().min(2)),
            (4, Some(TABLE_BRANCH), Some(item)) => self.table(item, 2),
            _ => (),
        }
    }

    fn table(&mut self, item: &Item, sort: usize) {
        self.tables.add(OF_AN_OP * usize::from(item.record[1]) + sort);
    }

    pub fn gaps(&self) -> Vec<String> {
        let [other, al] = &self.last;
        let gaps = [
            self.numbers.gaps(LEAST),
            self.accepted.gaps(LEAST),
            self.outside.gaps_of(LEAST, |sort| sort >= REFUSED && sort != IT),
            other.gaps_of(LEAST, |sort| LAST_OF_BLOCK.contains(&sort)),
            al.gaps_of(LEAST, |sort| LAST_OF_BLOCK.contains(&sort)),
            self.in_block.gaps(LEAST),
            self.ill_formed.gaps(LEAST),
            self.ends.gaps(LEAST),
            self.far.gaps(FEW),
            self.tables.gaps(LEAST),
            self.led.gaps(),
        ];
        gaps.concat()
    }
}

/// Of the block that the records end in.
fn condition(items: &[Item]) -> u8 {
    let it = items.iter().rev().find(|item| item.waiting() == 0);
    it.map_or(0, |item| item.record.get(2).copied().unwrap_or(0))
}

impl fmt::Display for Fillers {
    fn fmt(&self, f: &mut fmt::Formatter<'_>) -> fmt::Result {
        let [other, al] = &self.last;
        writeln!(f, "{}\n{}\n{}\n{other}\n{al}", self.numbers, self.accepted, self.outside)?;
        writeln!(f, "{}\n{}\n{}", self.in_block, self.ill_formed, self.ends)?;
        writeln!(f, "{}\n{}", self.far, self.tables)?;
        write!(f, "{}", self.led)
    }
}
