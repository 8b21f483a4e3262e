//! How the checks ended.

use super::ends::Ends;
use super::fillers::tally::Fillers;
use std::fmt;

/// What the check's table and prose tell apart.
const ENDS: [&str; 8] = [
    "0 accepted",
    "1 at place 0: too long, base odd",
    "1 at the end: end address too high",
    "2",
    "3",
    "4 in the listing",
    "4 at the end: a block left open",
    "9",
];

pub struct Tally {
    counts: [u64; ENDS.len()],
    /// Numbers and places that no check gives.
    strange: Vec<String>,
    ends: Ends,
    fillers: Fillers,
}

impl Tally {
    pub fn new() -> Tally {
        let (ends, fillers) = (Ends::new(), Fillers::new());
        Tally { counts: [0; ENDS.len()], strange: Vec::new(), ends, fillers }
    }

    pub fn check(&mut self, listing: &[u8], base: u32, (number, place): (u32, u32)) {
        self.ends.see(listing, base, number, place);
        self.fillers.see(listing, base, number, place as usize);
        let length = listing.len();
        let at_end = place as usize == length;
        let end = match (number, place) {
            (0, 0) => 0,
            (1, _) if at_end && length > 0 => 2,
            (1, 0) => 1,
            (2, _) if !at_end => 3,
            (3, _) if !at_end => 4,
            (4, _) if !at_end => 5,
            (4, _) => 6,
            (9, _) if !at_end => 7,
            _ => return self.strange.push(format!("{number} at {place} of {length}")),
        };
        self.counts[end] += 1;
    }

    pub fn listings(&self) -> u64 {
        self.counts.iter().sum::<u64>() + self.strange.len() as u64
    }

    /// What never occurred, and what did though it cannot.
    pub fn gaps(&self) -> Vec<String> {
        let never = ENDS.iter().zip(self.counts).filter(|&(_, count)| count == 0);
        let never = never.map(|(end, _)| format!("never {end}"));
        let gaps: Vec<String> = never.chain(self.strange.iter().cloned()).collect();
        [gaps, self.ends.gaps(), self.fillers.gaps()].concat()
    }
}

impl fmt::Display for Tally {
    fn fmt(&self, f: &mut fmt::Formatter<'_>) -> fmt::Result {
        for (end, count) in ENDS.iter().zip(self.counts) {
            writeln!(f, "{count:9} {end}")?;
        }
        write!(f, "{}{}", self.ends, self.fillers)
    }
}
