//! The same questions put to the proved stepper, linked as a static library, and to the second
//! program. The first answer that differs ends the run with exit status 1.
#![deny(unsafe_code)]

mod bench;
mod checks;
mod counts;
mod cover;
mod hex;
mod image;
mod image_bytes;
mod measured;
mod memory_length;
mod prng;
#[allow(unsafe_code)]
mod proved;
mod question;
mod random_record;
mod records;
mod resumes;
mod runs;
mod samples;
mod shapes;
mod site;
mod steps;
mod stock;
mod table;
mod texts;
mod unfit;
mod walk;
mod worked;

use std::process::ExitCode;

const USAGE: &str =
    "usage: compare records LEAST | steps LEAST [SEED] | checks LEAST [SEED] | runs LEAST [SEED]
     | resumes LEAST [SEED] | texts LEAST [SEED] | bench | loop TURNS
     | worked-steps FILE LEAST | worked-checks FILE LEAST | worked-runs FILE LEAST
     | worked-resumes FILE LEAST
SEED, TURNS and LEAST, the fewest questions or cases that there have to be, are decimal numbers.";

/// An error is a text that says what differs.
type Outcome = Result<(), String>;

fn main() -> ExitCode {
    let arguments: Vec<String> = std::env::args().skip(1).collect();
    let words: Vec<&str> = arguments.iter().map(String::as_str).collect();
    match outcome(&words) {
        Some(Ok(summary)) => {
            println!("{summary}");
            ExitCode::SUCCESS
        }
        Some(Err(failure)) => {
            eprintln!("{failure}");
            ExitCode::FAILURE
        }
        None => {
            eprintln!("{USAGE}");
            ExitCode::from(2)
        }
    }
}

/// None for words that call nothing.
fn outcome(words: &[&str]) -> Option<Result<String, String>> {
    let outcome = match words {
        ["records", least] => records::run(least.parse().ok()?),
        ["steps", least] => steps::run(least.parse().ok()?, steps::SEED),
        ["steps", least, seed] => steps::run(least.parse().ok()?, seed.parse().ok()?),
        ["checks", least] => checks::run(least.parse().ok()?, checks::SEED),
        ["checks", least, seed] => checks::run(least.parse().ok()?, seed.parse().ok()?),
        ["runs", least] => runs::run(least.parse().ok()?, runs::SEED),
        ["runs", least, seed] => runs::run(least.parse().ok()?, seed.parse().ok()?),
        ["resumes", least] => resumes::run(least.parse().ok()?, resumes::SEED),
        ["resumes", least, seed] => resumes::run(least.parse().ok()?, seed.parse().ok()?),
        ["texts", least] => texts::run(least.parse().ok()?, texts::SEED),
        ["texts", least, seed] => texts::run(least.parse().ok()?, seed.parse().ok()?),
        ["worked-steps", file, least] => worked::steps(file, least.parse().ok()?),
        ["worked-checks", file, least] => worked::checks(file, least.parse().ok()?),
        ["worked-runs", file, least] => worked::runs(file, least.parse().ok()?),
        ["worked-resumes", file, least] => worked::resumes(file, least.parse().ok()?),
        ["bench"] => bench::run(),
        ["loop", turns] => bench::turns::run(turns.parse().ok()?),
        _ => return None,
    };
    Some(outcome)
}
