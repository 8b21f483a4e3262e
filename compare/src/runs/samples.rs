//! The sample listings, as the program of paper 01 runs them, end as it writes.

use super::Comparison;
use crate::image::{parts, Image, BYTES, FLAG_NAMES};
use crate::question::run::{Question, ROOM};
use crate::samples::samples;
use crate::Outcome;
use std::fmt::Write;

const SP: usize = 13;
const PC: usize = 15;
const BUDGET: u32 = 1_000_000;

/// "base 0x1000, memory 32,768 zero bytes at 0x20000000, R13 0x20008000, R15 0x1000, all else 0,
/// budget 1,000,000".
pub fn question(listing: &[u8]) -> Question {
    let (mut image, memory_base) = (Image::FRESH, 0x2000_0000);
    (image.registers[SP], image.registers[PC]) = (0x2000_8000, 0x1000);
    Question {
        image: image.bytes(),
        listing: listing.to_vec(),
        listing_base: 0x1000,
        memory: vec![0; 32_768],
        memory_base,
        budget: BUDGET,
        room: ROOM,
    }
}

pub fn all(comparison: &mut Comparison) -> Outcome {
    for sample in samples()? {
        let (number, count) = comparison.put(&question(&sample.listing))?;
        let image = &comparison.answer().lent.image;
        let written = format!("end {number} steps {count}\n{}", state(image));
        if written != sample.end {
            let (name, end) = (sample.name, sample.end);
            return Err(format!("{name}: written in samples/:\n{end}\nby both sides:\n{written}"));
        }
    }
    Ok(())
}

/// A line for each register and one for the flags.
fn state(image: &[u8]) -> String {
    let parts = <&[u8; BYTES]>::try_from(image).map_or(Vec::new(), parts);
    let (registers, rest) = parts.split_at(parts.len().min(PC + 1));
    let mut text = String::new();
    for (name, value) in registers {
        let _ = writeln!(text, "{name} {value}");
    }
    let flags: String = rest.iter().take(FLAG_NAMES.len()).map(|(_, value)| &value[..]).collect();
    let _ = writeln!(text, "{} {flags}", FLAG_NAMES.concat());
    text
}
