//! The check of long listings.

use super::clock::{median, Rounds};
use crate::checks::listing::{fill_up, retarget, Records, BRANCH, COMPARE_BRANCH, IF_THEN};
use crate::prng::Prng;
use crate::table::{FILLER, TABLE_BRANCH};
use crate::{proved, random_record};
use std::time::Duration;

const SEED: u64 = 0xBE4C_C4EC;
const ROUNDS: usize = 9;
const LIMIT: usize = 65_536;
const BASE: u32 = 0x1000;
/// No record is longer.
const ROOM: usize = 16;

/// As many CBZ as B, which go to any landing place within their reach.
pub fn branches() -> Result<String, String> {
    let cbz = vec![COMPARE_BRANCH, 0, 0, 1, 0];
    let b = vec![BRANCH, 0, 0, 14, 0, 0, 0, 0];
    let pairs = (LIMIT - ROOM) / (cbz.len() + b.len());
    let mut records: Records = [cbz, b].into_iter().cycle().take(2 * pairs).collect();
    fill_up(&mut records, LIMIT);
    retarget(&mut Prng::new(SEED), &mut records);
    let times = times(&records.concat(), 1)?;
    let [proved, second] = times.map(|time| time.as_secs_f64() * 1e3);
    let head = format!("check, {LIMIT} bytes full of branches, median of {ROUNDS}:");
    Ok(format!("{head}\n  proved {proved:.3} ms, second {second:.3} ms"))
}

/// Without direct branches and blocks, at three lengths that show how the cost grows.
pub fn plain() -> Result<String, String> {
    let mut lines = vec![format!("check, no branches, median of {ROUNDS}:")];
    for bytes in [LIMIT / 16, LIMIT / 4, LIMIT] {
        let times = times(&plain_listing(bytes), LIMIT / bytes)?;
        let [proved, second] = times.map(|time| time.as_secs_f64() * 1e6);
        lines.push(format!("  {bytes:5} bytes: proved {proved:.1} us, second {second:.1} us"));
    }
    Ok(lines.join("\n"))
}

/// Order 1 of paper 02: fillers as long as they can be, each behind a TBB, each behind a B that goes to
/// any landing place within its reach, and nothing else, so that all addresses are far apart.
pub fn fillers() -> Result<String, String> {
    let filler = vec![FILLER, 0xFE, 0xFF];
    let pairs = |branch: &[u8]| -> Records {
        let count = LIMIT / (branch.len() + filler.len());
        [branch.to_vec(), filler.clone()].into_iter().cycle().take(2 * count).collect()
    };
    let mut branches = pairs(&[BRANCH, 0, 0, 14, 0, 0, 0, 0]);
    fill_up(&mut branches, LIMIT);
    retarget(&mut Prng::new(SEED), &mut branches);
    let tables = pairs(&[TABLE_BRANCH, 0, 2, 15, 0]);
    let alone = vec![filler.clone(); LIMIT / filler.len()];
    let mut lines = vec![format!("check, fillers of 65534 machine bytes, median of {ROUNDS}:")];
    for (name, records) in [("behind TBB", tables), ("behind B", branches), ("alone", alone)] {
        let listing = records.concat();
        let [proved, second] = times(&listing, 1)?.map(|time| time.as_secs_f64() * 1e3);
        let (bytes, count) = (listing.len(), records.iter().filter(|its| **its == filler).count());
        let told = format!("proved {proved:.3} ms, second {second:.3} ms");
        lines.push(format!("  {bytes:5} bytes, {count:5} {name:10}: {told}"));
    }
    Ok(lines.join("\n"))
}

fn plain_listing(bytes: usize) -> Vec<u8> {
    let (mut prng, mut records, mut length) = (Prng::new(SEED), Records::new(), 0);
    while length < bytes - ROOM {
        let record = random_record::allowed(&mut prng, 0);
        if !matches!(record[0], BRANCH | COMPARE_BRANCH | IF_THEN) {
            length += record.len();
            records.push(record);
        }
    }
    fill_up(&mut records, bytes);
    records.concat()
}

/// The compiler does not see that one check gives what the one before it gave.
#[inline(never)]
fn second_check(listing: &[u8]) -> (u32, u32) {
    second::check::check(listing, BASE)
}

/// Of one check by each side; a round checks so many times.
fn times(listing: &[u8], count: usize) -> Result<[Duration; 2], String> {
    let mut rounds = [Rounds::new(), Rounds::new()];
    for _ in 0..ROUNDS {
        let proved = rounds[0].take(|| (0..count).map(|_| proved::check(listing, BASE)).max());
        let second = rounds[1].take(|| (0..count).map(|_| second_check(listing)).max());
        if proved != Some(0) || second != Some((0, 0)) {
            return Err(format!("a listing was not accepted: {proved:?}, {second:?}"));
        }
    }
    Ok(rounds.map(|times| median(times) / count as u32))
}
