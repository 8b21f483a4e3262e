//! Runs of a running machine, order 6 of paper 02. All is told as for runs; further
//!
//! - `stored PLACE`, in decimal or `none`, makes the case a resume with that stored place; without it
//!   the case is a fresh run;
//! - `gives NUMBER at PLACE steps COUNT stored PLACE`, the last of them in decimal or `none`.

use super::block::{Block, Mistake};
use super::{parse, runs, Worked};
use crate::question::resume::{Answer, Entry, Question, ROOM};

impl Worked for Question {
    const NAME: &'static str = "resumes";
    const WORDS: &'static [&'static str] = &[
        "before",
        "base",
        "listing",
        "memory",
        "budget",
        parse::STORED,
        "gives",
        "after",
        "memory-after",
    ];

    fn case(block: &Block) -> Result<(Question, Answer), Mistake> {
        let (run, answer) = runs::run(block, ROOM, ["gives", "at", "steps", parse::STORED])?;
        let stored = block.may(parse::STORED, parse::stored)?;
        Ok((Question { run, entry: stored.map_or(Entry::Fresh, Entry::Stored) }, answer))
    }
}
