//! Times of several rounds, of which the one in the middle counts, or the shortest.

use std::time::{Duration, Instant};

pub struct Rounds(Vec<Duration>);

impl Rounds {
    pub fn new() -> Rounds {
        Rounds(Vec::new())
    }

    pub fn last(&self) -> Duration {
        self.0.last().copied().unwrap_or_default()
    }

    pub fn take<T>(&mut self, round: impl FnOnce() -> T) -> T {
        let start = Instant::now();
        let end = round();
        self.0.push(start.elapsed());
        end
    }
}

/// Of an odd number of rounds.
pub fn median(mut rounds: Rounds) -> Duration {
    rounds.0.sort();
    rounds.0[rounds.0.len() / 2]
}

/// What is left where nothing else slowed a round down.
pub fn best(rounds: &Rounds) -> Duration {
    rounds.0.iter().min().copied().unwrap_or_default()
}
