//! How fast both sides are, on the same questions in one run. Nothing here is a test: times are
//! told, and only answers that differ are a failure.

mod clock;
mod listings;
mod loops;
mod race;
mod runs;
mod stream;
pub mod turns;

use crate::image::Image;
use crate::{proved, Outcome};
use clock::{median, Rounds};
use second::image::{decode, encode};
use second::machine::Machine;
use std::time::Duration;
use stream::Stream;

const SEED: u64 = 0xBE4C_2026;
const RECORDS: usize = 8_192;
/// How often a round goes through the stream.
const TIMES: usize = 64;
const ROUNDS: usize = 9;
const BASE: u32 = 0x2000_0000;
const MEMORY: usize = 4_096;

pub fn run() -> Result<String, String> {
    let stream = Stream::new(SEED, RECORDS);
    let lines = [
        steps(&stream)?,
        listings::branches()?,
        listings::plain()?,
        listings::fillers()?,
        runs::long()?,
        loops::behind()?,
        race::both()?,
        runs::all_samples()?,
    ];
    Ok(lines.join("\n"))
}

/// What is left at the end of a round.
#[derive(PartialEq)]
struct End {
    image: Vec<u8>,
    memory: Vec<u8>,
    done: usize,
}

fn fresh() -> (Image, Vec<u8>) {
    (stream::machine(), vec![0x5A; MEMORY])
}

fn proved_round(stream: &Stream) -> End {
    let (image, mut memory) = fresh();
    let (mut image, mut done) = (image.bytes(), 0);
    for record in (0..TIMES).flat_map(|_| stream.records()) {
        let number = proved::step(&mut image, record, &mut memory, BASE);
        done += usize::from(number == 0);
    }
    End { image, memory, done }
}

fn second_round(stream: &Stream) -> End {
    let (image, mut memory) = fresh();
    let (mut image, mut done) = (image.bytes(), 0);
    for record in (0..TIMES).flat_map(|_| stream.records()) {
        done += usize::from(second_step(&mut image, record, &mut memory) == Some(0));
    }
    End { image, memory, done }
}

/// As the C function does: the image is read and written for every step, and the compiler does not
/// see from one call into the next.
#[inline(never)]
fn second_step(image: &mut [u8], record: &[u8], memory: &mut [u8]) -> Option<u32> {
    let mut machine = decode(image)?;
    let number = second::step::step(&mut machine, record, memory, BASE);
    image.copy_from_slice(&encode(&machine));
    Some(number)
}

fn own_round(stream: &Stream) -> End {
    let (image, mut memory) = fresh();
    let (mut machine, mut done) = (decode(&image.bytes()).unwrap_or(Machine::FRESH), 0);
    for record in (0..TIMES).flat_map(|_| stream.records()) {
        done += usize::from(own_step(&mut machine, record, &mut memory) == 0);
    }
    End { image: encode(&machine).to_vec(), memory, done }
}

#[inline(never)]
fn own_step(machine: &mut Machine, record: &[u8], memory: &mut [u8]) -> u32 {
    second::step::step(machine, record, memory, BASE)
}

fn steps(stream: &Stream) -> Result<String, String> {
    let steps = TIMES * stream.len();
    let mut rounds = [Rounds::new(), Rounds::new(), Rounds::new()];
    let mut done = 0;
    for _ in 0..ROUNDS {
        let proved = rounds[0].take(|| proved_round(stream));
        let second = rounds[1].take(|| second_round(stream));
        let own = rounds[2].take(|| own_round(stream));
        same(&proved, &second)?;
        same(&own, &second)?;
        done = second.done;
    }
    let [proved, second, own] = rounds.map(|times| rate(steps, median(times)));
    let percent = done * 100 / steps;
    let head = format!("steps, {ROUNDS} rounds of {steps}, {percent} % of them done, median:");
    let lines = [
        head,
        format!("  proved, through the image  {proved:12.0} steps a second"),
        format!("  second, through the image  {second:12.0} steps a second"),
        format!("  second, its own machine    {own:12.0} steps a second"),
        format!("  proved to second, both through the image: {:.2}", proved / second),
    ];
    Ok(lines.join("\n"))
}

fn rate(steps: usize, time: Duration) -> f64 {
    steps as f64 / time.as_secs_f64()
}

fn same(one: &End, other: &End) -> Outcome {
    if one == other {
        Ok(())
    } else {
        Err("the sides end a round differently: see `compare steps`".to_string())
    }
}
