//! Checks of listings:
//!
//! - `base ADDRESS` in hex, or 00001000;
//! - `listing BYTES`, once or more; `1500*32768` stands for bytes repeated;
//! - `gives NUMBER at PLACE`, in decimal.

use super::block::{Block, Mistake};
use super::{parse, Worked};
use crate::question::check::{Answer, Question};

const HIGHEST_NUMBER: u32 = 9;

impl Worked for Question {
    const NAME: &'static str = "checks";
    const WORDS: &'static [&'static str] = &["base", "listing", "gives"];

    fn case(block: &Block) -> Result<(Question, Answer), Mistake> {
        let (listing, base) = parse::listing(block)?;
        let [number, place] =
            block.must("gives", |text| parse::report(text, HIGHEST_NUMBER, ["gives", "at"]))?;
        Ok((Question { listing, base }, Answer { number, place }))
    }
}
