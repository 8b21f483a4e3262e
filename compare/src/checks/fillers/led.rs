//! Where the direct branches of listings with fillers led.

use crate::table::FILLER;
use crate::walk::Item;
use std::fmt;

const BRANCHES: [&str; 5] = ["B", "B with a condition", "BL", "CBZ", "CBNZ"];
const SORTS: [&str; 7] = [
    "9 to a filler",
    "9 into a filler",
    "accepted to right behind a filler",
    "accepted to the end right behind a filler",
    "accepted on over a filler",
    "accepted over one of 65,534",
    "accepted back over a filler",
];
/// CBZ and CBNZ go neither so far nor back.
const OF_LONG: usize = 5;
const FIRST_SHORT: usize = 3;
const MOST: i64 = 65_534;
/// Of each case.
const LEAST: u64 = 1_000;
const AL: u8 = 14;

pub struct Led([[u64; SORTS.len()]; BRANCHES.len()]);

/// Which branch, and by what offset from 4 bytes after it.
fn branch(record: &[u8]) -> Option<(usize, i64)> {
    match *record {
        [0x11, op, _, condition, a, b, c, d] => {
            let row = if op == 1 { 2 } else { usize::from(condition != AL) };
            Some((row, i32::from_le_bytes([a, b, c, d]).into()))
        }
        [0x13, op, _, _, offset] => Some((FIRST_SHORT + usize::from(op), offset.into())),
        _ => None,
    }
}

impl Led {
    pub fn new() -> Led {
        Led([[0; SORTS.len()]; BRANCHES.len()])
    }

    /// The branch at an index that was refused, or all of an accepted listing.
    pub fn see(&mut self, items: &[Item], at: usize, number: u32) {
        let fillers: Vec<&Item> = items.iter().filter(|item| item.record[0] == FILLER).collect();
        match (number, items.get(at)) {
            (0, _) => items.iter().for_each(|item| self.accepted(item, items, &fillers)),
            (9, Some(item)) => self.refused(item, &fillers),
            _ => (),
        }
    }

    fn refused(&mut self, item: &Item, fillers: &[&Item]) {
        if let Some((row, offset)) = branch(item.record) {
            let target = item.at + 4 + offset;
            let near = fillers.iter().find(|filler| (filler.at..filler.next()).contains(&target));
            if let Some(filler) = near {
                self.0[row][usize::from(target > filler.at)] += 1;
            }
        }
    }

    fn accepted(&mut self, item: &Item, items: &[Item], fillers: &[&Item]) {
        let (row, target) = match branch(item.record) {
            Some((row, offset)) => (row, item.at + 4 + offset),
            None => return,
        };
        let counts = &mut self.0[row];
        if fillers.iter().any(|filler| filler.next() == target) {
            let is_end = items.last().map_or(false, |last| last.next() == target);
            counts[2 + usize::from(is_end)] += 1;
        }
        let over = |filler: &Item| item.at < filler.at && filler.next() <= target;
        let back = |filler: &Item| target <= filler.at && filler.next() <= item.at;
        let most = |filler: &Item| filler.machine_bytes == MOST;
        counts[4] += u64::from(fillers.iter().any(|filler| over(filler)));
        counts[5] += u64::from(fillers.iter().any(|filler| over(filler) && most(filler)));
        counts[6] += u64::from(fillers.iter().any(|filler| back(filler)));
    }

    pub fn gaps(&self) -> Vec<String> {
        let mut gaps = Vec::new();
        for (row, counts) in self.0.iter().enumerate() {
            let sorts = if row < FIRST_SHORT { SORTS.len() } else { OF_LONG };
            for (sort, count) in SORTS[..sorts].iter().zip(counts).filter(|(_, &n)| n < LEAST) {
                gaps.push(format!("{}: {sort} {count} times", BRANCHES[row]));
            }
        }
        gaps
    }
}

impl fmt::Display for Led {
    fn fmt(&self, f: &mut fmt::Formatter<'_>) -> fmt::Result {
        for (sort, name) in SORTS.iter().enumerate() {
            let counts: Vec<String> = BRANCHES
                .iter()
                .zip(&self.0)
                .filter(|(_, counts)| counts[sort] > 0)
                .map(|(branch, counts)| format!("{branch} {}", counts[sort]))
                .collect();
            writeln!(f, "{name}: {}", counts.join(", "))?;
        }
        Ok(())
    }
}
