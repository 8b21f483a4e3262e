//! Rehearsals: the text, byte for byte, and every byte of the room that is lent for it.

mod fixed;
mod listing;
mod tally;

use crate::counts::fewer;
use crate::prng::Prng;
use crate::question::run::Answer;
use crate::question::Question as _;
use crate::runs::samples::question;
use crate::{hex, proved, Outcome};
use tally::Tally;

pub const SEED: u64 = 0x7E87_2026;
const LISTINGS: u64 = 20_000;
/// "at most 256 bytes".
const LONGEST: usize = 256;
/// Bytes before and after the room, which stay as they were too.
const AROUND: usize = 16;
/// A run of many steps takes long; before order 6 of paper 02, when the proved side looked for each
/// record from the listing's start, the longer the listing the more so. One of more steps times the
/// listing's bytes than this is dear.
const CHEAP: usize = 150_000;
/// So many of the random listings may be dear, if they have so few bytes.
const DEAR: u64 = 3;
const SHORT: usize = 24;
const DEAR_ROOMS: usize = 2;
const USED_UP: u32 = 10;

pub fn run(least: u64, seed: u64) -> Result<String, String> {
    let mut prng = Prng::new(seed);
    let mut comparison = Comparison { seed, count: 0, tally: Tally::new() };
    fixed::samples(&mut comparison)?;
    fixed::limits(&mut comparison, &mut prng)?;
    fixed::endless(&mut comparison)?;
    fixed::steps(&mut comparison)?;
    fixed::places(&mut comparison)?;
    fixed::fillers(&mut comparison)?;
    let (mut random, mut dear) = (0, 0);
    while random < LISTINGS {
        let listing = listing::some(&mut prng);
        if !is_dear(&listing) {
            comparison.put(&listing)?;
        } else if dear < DEAR && listing.len() <= SHORT {
            comparison.put(&listing)?;
            dear += 1;
        } else {
            continue;
        }
        random += 1;
    }
    let Comparison { count, tally, .. } = comparison;
    match tally.gaps().into_iter().chain(fewer(count, least)).collect::<Vec<_>>() {
        gaps if gaps.is_empty() => {
            let compared = format!("{count} listings compared, {random} of them random");
            Ok(format!("{tally}texts: {compared}, no difference (seed {seed})"))
        }
        gaps => Err(format!("{tally}texts: not all was tried: {}", gaps.join("; "))),
    }
}

/// It is the second program that says so, but nothing is concluded from it.
fn is_dear(listing: &[u8]) -> bool {
    let (mut question, mut answer) = (question(listing), Answer::default());
    question.budget = (CHEAP / listing.len().max(1)) as u32;
    question.ask_second(&mut answer);
    answer.number == USED_UP
}

pub struct Comparison {
    seed: u64,
    count: u64,
    tally: Tally,
}

impl Comparison {
    /// Gives the text that both sides gave. A dear rehearsal is done for two rooms only. A
    /// rehearsal with a budget of its own, `second::program::program_within`, would be put here
    /// beside it, once there is a proved one to compare it with.
    pub fn put(&mut self, listing: &[u8]) -> Result<String, String> {
        self.count += 1;
        let text = second::program::program(listing);
        let length = text.len();
        if length > LONGEST {
            return Err(self.differ(listing, &format!("a text of {length} bytes:\n{text}")));
        }
        let rooms = [length - 1, length, 0, length + 1, LONGEST, 300];
        let count = if is_dear(listing) { DEAR_ROOMS } else { rooms.len() };
        for &room in &rooms[..count] {
            self.lend(listing, &text, room)?;
        }
        self.tally.add(&text);
        Ok(text)
    }

    fn lend(&self, listing: &[u8], text: &str, room: usize) -> Outcome {
        let mut wanted = untouched(AROUND + room + AROUND);
        let mut lent = wanted.clone();
        if text.len() <= room {
            wanted[AROUND..AROUND + text.len()].copy_from_slice(text.as_bytes());
        }
        let length = proved::rehearse(listing, &mut lent[AROUND..AROUND + room]);
        if length == text.len() && lent == wanted {
            return Ok(());
        }
        let lines = [
            format!("room of {room} bytes, with {AROUND} before and {AROUND} after it"),
            format!("proved {length}: {}", hex::line(&lent)),
            format!("wanted {}: {}", text.len(), hex::line(&wanted)),
            format!("proved: {}", String::from_utf8_lossy(&lent[AROUND..AROUND + room])),
            format!("second: {text}"),
        ];
        Err(self.differ(listing, &lines.join("\n")))
    }

    #[cold]
    fn differ(&self, listing: &[u8], how: &str) -> String {
        let (count, seed, length) = (self.count, self.seed, listing.len());
        let bytes = hex::memory(listing);
        format!("difference: text {count} of seed {seed}\n{length} bytes: {bytes}\n{how}")
    }
}

/// Bytes that no text has, another at each of 128 places in a row.
fn untouched(length: usize) -> Vec<u8> {
    (0..length).map(|at| 0x80 | (at * 37 + 11) as u8).collect()
}
