//! The loop of samples/loop/: "with R0 = n at the start both end after 10 n steps at the end address".

use crate::image;
use crate::question::run::{Answer, Question};
use crate::question::Question as _;
use crate::runs::samples;
use crate::samples::loop_listing;

/// The steps of a turn.
pub const TURN: u32 = 10;

/// "R13 0x20008000, memory of 32,768 bytes at 0x20000000, all else 0", as the samples have it.
pub fn question(turns: u32) -> Result<Question, String> {
    let most = u32::MAX / TURN;
    if turns == 0 || turns > most {
        return Err(format!("loop: the turns are 1 to {most}"));
    }
    let mut question = samples::question(&loop_listing()?);
    question.image[..4].copy_from_slice(&turns.to_le_bytes());
    question.budget = TURN * turns;
    Ok(question)
}

/// The proved run alone, for tools that measure a whole program: compare/peers/README.md.
pub fn run(turns: u32) -> Result<String, String> {
    let (question, mut answer) = (question(turns)?, Answer::default());
    question.ask_proved(&mut answer);
    match answer.ran() {
        Some([0, 0, count]) if count == question.budget => {
            Ok(format!("loop: {count} steps, {}", image::text(&answer.lent.image)))
        }
        _ => Err(format!("loop: not at its end: proved {answer}")),
    }
}
