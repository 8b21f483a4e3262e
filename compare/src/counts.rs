//! How often each of some sorts came up.

use std::fmt;

pub struct Counts<const SORTS: usize> {
    title: &'static str,
    names: [&'static str; SORTS],
    counts: [u64; SORTS],
}

impl<const SORTS: usize> Counts<SORTS> {
    pub fn new(title: &'static str, names: [&'static str; SORTS]) -> Counts<SORTS> {
        Counts { title, names, counts: [0; SORTS] }
    }

    pub fn add(&mut self, sort: usize) {
        self.counts[sort] += 1;
    }

    /// What is to be told where there were fewer in all.
    pub fn fewer(&self, least: u64) -> Option<String> {
        let sum: u64 = self.counts.iter().sum();
        (sum < least).then(|| format!("{}: {sum} in all", self.title))
    }

    /// The sorts that came up fewer times than the least.
    pub fn gaps(&self, least: u64) -> Vec<String> {
        self.gaps_of(least, |_| true)
    }

    /// Of the sorts that can come up; of the others, those that did.
    pub fn gaps_of(&self, least: u64, can: impl Fn(usize) -> bool) -> Vec<String> {
        self.gaps_by(|sort| can(sort).then_some(least))
    }

    /// With a least for each sort, or None where it can't come up.
    pub fn gaps_by(&self, least: impl Fn(usize) -> Option<u64>) -> Vec<String> {
        let all = self.names.iter().zip(self.counts).enumerate();
        let few =
            all.filter(|&(sort, (_, count))| least(sort).map_or(count > 0, |least| count < least));
        few.map(|(_, (name, count))| format!("{}: {name} {count} times", self.title)).collect()
    }
}

impl<const SORTS: usize> fmt::Display for Counts<SORTS> {
    fn fmt(&self, f: &mut fmt::Formatter<'_>) -> fmt::Result {
        let each: Vec<String> = self
            .names
            .iter()
            .zip(self.counts)
            .map(|(name, count)| format!("{name} {count}"))
            .collect();
        write!(f, "{}: {}", self.title, each.join(", "))
    }
}

/// What is to be told where fewer were compared than there were once.
pub fn fewer(count: u64, least: u64) -> Option<String> {
    (count < least).then(|| format!("{count} compared, where there are to be at least {least}"))
}
