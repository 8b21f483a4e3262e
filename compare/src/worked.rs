//! Cases that were worked by hand, put to both sides.

mod block;
mod checks;
mod parse;
mod resumes;
mod runs;
mod steps;

use crate::question::{check, resume, run, step, Question};
use block::{Block, Mistake};

pub fn steps(file: &str, least: usize) -> Result<String, String> {
    all::<step::Question>(file, least)
}

pub fn checks(file: &str, least: usize) -> Result<String, String> {
    all::<check::Question>(file, least)
}

pub fn runs(file: &str, least: usize) -> Result<String, String> {
    all::<run::Question>(file, least)
}

pub fn resumes(file: &str, least: usize) -> Result<String, String> {
    all::<resume::Question>(file, least)
}

/// What the cases of a file are.
trait Worked: Question + Sized {
    const NAME: &'static str;
    /// The words that lines of a case begin with, beside `case` and `why`.
    const WORDS: &'static [&'static str];

    fn case(block: &Block) -> Result<(Self, Self::Answer), Mistake>;
}

/// A file with fewer cases than the least has lost some.
fn all<Q: Worked>(file: &str, least: usize) -> Result<String, String> {
    let text = std::fs::read_to_string(file).map_err(|error| format!("{file}: {error}"))?;
    let at = |mistake: Mistake| format!("{file}:{}: {}", mistake.line, mistake.what);
    let blocks = block::blocks(&text, Q::WORDS).map_err(at)?;
    let (name, count) = (Q::NAME, blocks.len());
    if count < least {
        return Err(format!("{file}: {count} {name} where there are to be at least {least}"));
    }
    for block in &blocks {
        let (question, answer) = Q::case(block).map_err(at)?;
        let apart = answers_apart(&question, &answer);
        if !apart.is_empty() {
            let head = format!("{file}:{}: difference: {}", block.line, block.name);
            return Err(format!("{head}\n{question}\n{}", apart.join("\n")));
        }
    }
    Ok(format!("worked: {count} {name}, proved and second as by hand"))
}

/// What the two sides have otherwise than the answer by hand, a line each.
fn answers_apart<Q: Question>(question: &Q, answer: &Q::Answer) -> Vec<String> {
    let (mut proved, mut second) = (Q::Answer::default(), Q::Answer::default());
    question.ask_proved(&mut proved);
    question.ask_second(&mut second);
    let mut lines = Q::apart(["by hand", "proved"], [answer, &proved]);
    lines.extend(Q::apart(["by hand", "second"], [answer, &second]));
    lines
}
