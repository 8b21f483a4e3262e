//! Runs. The machine and memory, before and after, are told as for steps, the listing as for checks;
//! further
//!
//! - `budget NUMBER` in decimal;
//! - `gives NUMBER at PLACE steps COUNT`, in decimal.
//!
//! What is after is "as after the last good step": it may differ from before whatever the number is.

use super::block::{Block, Mistake};
use super::{parse, Worked};
use crate::question::run::{Answer, Question, ROOM};

const HIGHEST_NUMBER: u32 = 10;

impl Worked for Question {
    const NAME: &'static str = "runs";
    const WORDS: &'static [&'static str] =
        &["before", "base", "listing", "memory", "budget", "gives", "after", "memory-after"];

    fn case(block: &Block) -> Result<(Question, Answer), Mistake> {
        run(block, ROOM, ["gives", "at", "steps"])
    }
}

/// A run with such a room for its answer, which has a number after each of the words.
pub fn run<const WORDS: usize>(
    block: &Block,
    room: usize,
    words: [&str; WORDS],
) -> Result<(Question, Answer), Mistake> {
    let before = block.must("before", parse::machine)?;
    let (listing, listing_base) = parse::listing(block)?;
    let (memory_base, memory) = parse::lent_memory(block)?;
    let budget = block.must("budget", |text| parse::number(text, u32::MAX))?;
    let numbers = block.must("gives", |text| parse::report(text, HIGHEST_NUMBER, words))?;
    let lent = parse::lent_after(block, before, &memory)?;
    let image = before.bytes();
    let question = Question { image, listing, listing_base, memory, memory_base, budget, room };
    let answer = question.answered(&numbers);
    Ok((question, Answer { lent, ..answer }))
}
