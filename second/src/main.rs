#![forbid(unsafe_code)]

use std::ffi::{OsStr, OsString};
use std::io::{Read, Write};
use std::process::ExitCode;

const USAGE: &str = "usage: second edges | second program [--steps N] FILE \
    (- for standard input, N 0 to 4294967295)";
const STEPS: &str = "--steps";

fn main() -> ExitCode {
    let arguments: Vec<OsString> = std::env::args_os().skip(1).collect();
    let text = match answer(&arguments) {
        Some(text) => text,
        None => {
            eprintln!("{USAGE}");
            return ExitCode::from(2);
        }
    };
    match text.and_then(|text| std::io::stdout().write_all(text.as_bytes())) {
        Ok(()) => ExitCode::SUCCESS,
        Err(error) => {
            eprintln!("second: {error}");
            ExitCode::FAILURE
        }
    }
}

/// None for a call that is not in the usage; `--steps` is no file's name.
fn answer(arguments: &[OsString]) -> Option<std::io::Result<String>> {
    match arguments {
        [call] if call == "edges" => Some(Ok(second::edges::table())),
        [call, file] if call == "program" && file != STEPS => {
            Some(bytes(file).map(|listing| second::program::program(&listing)))
        }
        [call, option, steps, file] if call == "program" && option == STEPS && file != STEPS => {
            let budget = number(steps)?;
            Some(bytes(file).map(|listing| second::program::program_within(&listing, budget)))
        }
        _ => None,
    }
}

/// Decimal digits only: `parse` alone would take a plus sign.
fn number(text: &OsStr) -> Option<u32> {
    let text = text.to_str()?;
    let digits = text.bytes().all(|byte| byte.is_ascii_digit());
    text.parse().ok().filter(|_| digits)
}

fn bytes(file: &OsStr) -> std::io::Result<Vec<u8>> {
    if file != "-" {
        return std::fs::read(file);
    }
    let mut listing = Vec::new();
    std::io::stdin().read_to_end(&mut listing)?;
    Ok(listing)
}
