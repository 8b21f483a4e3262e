//! Steps:
//!
//! - `before R0=12345678 C Z wait=0,1`: the machine; registers that are not named are 0, flags that
//!   are named are set, `wait=` gives the waiting conditions in decimal;
//! - `record 0D 00 ..`: its bytes in hex;
//! - `memory BASE: BYTES`, or none at 20000000; `zero*N` stands for N zero bytes;
//! - `gives NUMBER`;
//! - `after R1=.. N=1 wait=none`: what is otherwise than before, only where the number is 0;
//! - `memory-after OFFSET: BYTES`: bytes at a decimal offset, likewise. All else is as before.

use super::block::{Block, Mistake};
use super::{parse, Worked};
use crate::question::step::{Answer, Question};

const HIGHEST_NUMBER: u32 = 7;

impl Worked for Question {
    const NAME: &'static str = "steps";
    const WORDS: &'static [&'static str] =
        &["before", "record", "memory", "gives", "after", "memory-after"];

    fn case(block: &Block) -> Result<(Question, Answer), Mistake> {
        let before = block.must("before", parse::machine)?;
        let record = block.must("record", parse::bytes)?;
        let number = block.must("gives", |text| parse::number(text, HIGHEST_NUMBER))?;
        let change = block.all("after").chain(block.all("memory-after")).next();
        if let Some(line) = change.filter(|_| number != 0) {
            return Err(line.mistake("a refused step changes nothing".to_string()));
        }
        let (base, memory) = parse::lent_memory(block)?;
        let lent = parse::lent_after(block, before, &memory)?;
        Ok((Question { image: before.bytes(), record, base, memory }, Answer { number, lent }))
    }
}
