//! Runs: a long one over many records, and the samples.

use super::clock::{median, Rounds};
use super::stream::{self, Stream};
use super::{rate, BASE, MEMORY};
use crate::checks::listing::{end_of, lead, Records, BRANCH};
use crate::proved;
use crate::question::run::{Answer, Question, ROOM};
use crate::question::Question as _;
use crate::samples::samples;
use second::program::program;
use std::time::Duration;

const SEED: u64 = 0xBE4C_0520;
const ROUNDS: usize = 5;
/// A round that takes longer is the only one.
const LONG: Duration = Duration::from_secs(2);
const RECORDS: usize = 1_000;
const STEPS: u32 = 1_000_000;
const LISTING_BASE: u32 = 0x1000;
const AL: u8 = 14;
/// No text is longer.
const TEXT: usize = 256;

/// A loop through all of a listing, until the steps are used up.
pub fn long() -> Result<String, String> {
    let mut records = stream_of(RECORDS - 1);
    let mut back = vec![BRANCH, 0, 2, AL, 0, 0, 0, 0];
    lead(&mut back, end_of(&records), 0);
    records.push(back);
    let question = Question {
        image: stream::machine().bytes(),
        listing: records.concat(),
        listing_base: LISTING_BASE,
        memory: vec![0x5A; MEMORY],
        memory_base: BASE,
        budget: STEPS,
        room: ROOM,
    };
    let (times, count) = times(&question)?;
    let [proved, second] = times.map(|time| (rate(count as usize, time), time.as_secs_f64() * 1e3));
    let lines = [
        format!(
            "run, {count} steps in a loop through {RECORDS} records, median of {ROUNDS} or one:"
        ),
        format!("  proved {:10.1} ms  {:12.0} steps a second", proved.1, proved.0),
        format!("  second {:10.1} ms  {:12.0} steps a second", second.1, second.0),
        format!("  proved takes {:.1} times as long", proved.1 / second.1),
    ];
    Ok(lines.join("\n"))
}

/// What the stream has outside of branches, with NOPs up to the number.
fn stream_of(count: usize) -> Records {
    let stream = Stream::new(SEED, 2 * count);
    let straight = stream.records().filter(|record| !matches!(record[0], 0x11..=0x13));
    let mut records: Records = straight.map(<[u8]>::to_vec).take(count - 4).collect();
    // a block that was cut off gets its records
    records.resize(count, vec![0x15, 0]);
    records
}

/// Check, run and text, as the program does them.
pub fn all_samples() -> Result<String, String> {
    let mut lines = vec![format!("the samples through the program, median of {ROUNDS} or one:")];
    for sample in samples()? {
        let [proved, second] = program_times(&sample.listing)?.map(|time| time.as_secs_f64() * 1e3);
        let (name, ratio) = (sample.name, proved / second);
        lines.push(format!(
            "  {name:12} proved {proved:8.2} ms, second {second:7.2} ms, {ratio:.1} times"
        ));
    }
    Ok(lines.join("\n"))
}

fn program_times(listing: &[u8]) -> Result<[Duration; 2], String> {
    let mut rounds = [Rounds::new(), Rounds::new()];
    let (mut room, mut length, mut text) = ([0; TEXT], 0, String::new());
    for _ in 0..ROUNDS {
        rounds[0].take(|| length = proved::rehearse(listing, &mut room));
        rounds[1].take(|| text = program(listing));
        if room.get(..length) != Some(text.as_bytes()) {
            return Err("the sides write a text differently: see `compare texts`".to_string());
        }
        if rounds[0].last() > LONG {
            break;
        }
    }
    Ok(rounds.map(median))
}

/// Of one run by each side, and its steps.
fn times(question: &Question) -> Result<([Duration; 2], u32), String> {
    let mut rounds = [Rounds::new(), Rounds::new()];
    let (mut proved, mut second) = (Answer::default(), Answer::default());
    for _ in 0..ROUNDS {
        rounds[0].take(|| question.ask_proved(&mut proved));
        rounds[1].take(|| question.ask_second(&mut second));
        if proved != second {
            return Err("the sides end a run differently: see `compare runs`".to_string());
        }
        if rounds[0].last() > LONG {
            break;
        }
    }
    Ok((rounds.map(median), second.count()))
}
