//! How the rehearsals ended: the first word of their text and its number.

use std::fmt;

const FEW: u64 = 20;
/// For listings above the limit, and for runs that use all steps up: both take long.
const FEWER: u64 = 3;
/// All that there are, and the fewest that are to come up.
const ENDS: [(&str, u64); 11] = [
    ("check 1", FEWER),
    ("check 2", FEW),
    ("check 3", FEW),
    ("check 4", FEW),
    ("check 9", FEW),
    ("end 0", FEW),
    ("end 5", FEW),
    ("end 6", FEW),
    ("end 7", FEW),
    ("end 8", FEW),
    ("end 10", FEWER),
];

pub struct Tally {
    counts: [u64; ENDS.len()],
    /// Texts that begin in no such way.
    strange: Vec<String>,
}

impl Tally {
    pub fn new() -> Tally {
        Tally { counts: [0; ENDS.len()], strange: Vec::new() }
    }

    pub fn add(&mut self, text: &str) {
        let words: Vec<&str> = text.split_ascii_whitespace().take(2).collect();
        let end = words.join(" ");
        match ENDS.iter().position(|&(name, _)| name == end) {
            Some(sort) => self.counts[sort] += 1,
            None => self.strange.push(format!("a text that begins with {end}")),
        }
    }

    /// What came up too rarely, and what did though it cannot.
    pub fn gaps(&self) -> Vec<String> {
        let few = ENDS.iter().zip(self.counts).filter(|&(&(_, least), count)| count < least);
        let few = few.map(|((name, _), count)| format!("{name} {count} times"));
        few.chain(self.strange.iter().cloned()).collect()
    }
}

impl fmt::Display for Tally {
    fn fmt(&self, f: &mut fmt::Formatter<'_>) -> fmt::Result {
        for ((name, _), count) in ENDS.iter().zip(self.counts) {
            writeln!(f, "{count:9} {name}")?;
        }
        Ok(())
    }
}
