//! One loop alone and behind many records that are never run. Before order 6 of paper 02: "The run
//! walks the listing from the start to find the record for R15 at every step." With a stored place it
//! takes as long wherever the loop stands.

use super::clock::{best, Rounds};
use super::{rate, stream, BASE, MEMORY};
use crate::checks::listing::{end_of, lead, Records, BRANCH};
use crate::question::run::{Answer, Question, ROOM};
use crate::question::Question as _;
use std::time::Duration;

const BEHIND: [usize; 3] = [0, 1_000, 10_000];
const ROUNDS: usize = 9;
/// A round takes so long or longer; where each step takes long, that is few steps.
const ROUND: Duration = Duration::from_millis(500);
const FIRST: u32 = 200;
const LISTING_BASE: u32 = 0x1000;
const PC: usize = 15;
const AL: u8 = 14;
const USED_UP: u32 = 10;
const NOP: [u8; 2] = [0x15, 0];
/// R8 points to memory; IT CC with an else.
const LOOP: [&[u8]; 10] = [
    &[0x02, 0, 1, 0, 0, 1, 0, 0, 0],
    &[0x01, 7, 0, 1, 1, 0, 0, 0],
    &[0x0D, 0, 0, 2, 8, 0, 16, 0],
    &[0x01, 0, 0, 2, 2, 1, 0, 0],
    &[0x0D, 5, 0, 2, 8, 0, 20, 0],
    &[0x02, 12, 1, 0, 0, 128, 0, 0, 0],
    &[0x14, 0, 3, 2, 1],
    &[0x02, 0, 0, 3, 3, 1, 0, 0, 0],
    &[0x02, 2, 0, 4, 4, 1, 0, 0, 0],
    &[BRANCH, 0, 0, AL, 0, 0, 0, 0],
];

/// The proved run alone, with the time of a run without steps taken off: call and check.
pub fn behind() -> Result<String, String> {
    let mut questions = BEHIND.map(question);
    for question in &mut questions {
        enough(question)?;
    }
    // in turns, so that what slows the machine down for a while slows all three
    let mut calls = BEHIND.map(|_| Rounds::new());
    let mut rounds = BEHIND.map(|_| Rounds::new());
    for _ in 0..ROUNDS {
        for (at, question) in questions.iter().enumerate() {
            round(&mut calls[at], question, 0)?;
            round(&mut rounds[at], question, question.budget)?;
        }
    }
    let (count, off) = (LOOP.len(), "less call and check");
    let mut lines = vec![format!("run, a loop of {count} records, best of {ROUNDS} {off}:")];
    let mut rates = Vec::new();
    for (at, (behind, question)) in BEHIND.into_iter().zip(&questions).enumerate() {
        let time = best(&rounds[at]).saturating_sub(best(&calls[at]));
        let (steps, rate) = (question.budget, rate(question.budget as usize, time));
        let name = if behind == 0 { "alone".to_string() } else { format!("behind {behind}") };
        lines.push(format!("  proved, {name:13} {rate:12.0} steps a second, {steps} steps"));
        rates.push(rate);
    }
    let fastest = rates.iter().copied().fold(0.0, f64::max);
    let slowest = rates.iter().copied().fold(fastest, f64::min);
    let below = 100.0 * (1.0 - slowest / fastest);
    lines.push(format!("  the slowest is {below:.1} % below the fastest"));
    Ok(lines.join("\n"))
}

/// R15 is at the loop.
fn question(behind: usize) -> Question {
    let mut body: Records = LOOP.iter().map(|record| record.to_vec()).collect();
    let last = LOOP.len() - 1;
    let at = end_of(&body[..last]);
    lead(&mut body[last], at, 0);
    let mut image = stream::machine();
    image.registers[PC] = LISTING_BASE + 2 * behind as u32;
    Question {
        image: image.bytes(),
        listing: [NOP.repeat(behind), body.concat()].concat(),
        listing_base: LISTING_BASE,
        memory: vec![0x5A; MEMORY],
        memory_base: BASE,
        budget: FIRST,
        room: ROOM,
    }
}

/// Sets a budget that fills a round.
fn enough(question: &mut Question) -> Result<(), String> {
    loop {
        let mut rounds = Rounds::new();
        round(&mut rounds, question, question.budget)?;
        let short = ROUND.as_secs_f64() / rounds.last().as_secs_f64();
        if short <= 1.0 || question.budget > u32::MAX / 16 {
            return Ok(());
        }
        // what is almost enough will do after a little more
        question.budget = (f64::from(question.budget) * short.clamp(1.1, 10.0)) as u32;
    }
}

fn round(rounds: &mut Rounds, question: &Question, budget: u32) -> Result<(), String> {
    let (question, mut answer) = (Question { budget, ..question.clone() }, Answer::default());
    rounds.take(|| question.ask_proved(&mut answer));
    match answer.ran() {
        Some([USED_UP, 0, count]) if count == budget => Ok(()),
        _ => Err(format!("a loop without an end has one: proved {answer}")),
    }
}
