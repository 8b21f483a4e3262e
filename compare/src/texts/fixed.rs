//! The sample listings, listings at the limits, numbers of every length in the text, and fillers.

use super::{is_dear, Comparison};
use crate::checks::listing::{end_of, fill_up, lead, Records, BRANCH};
use crate::checks::{fault, long};
use crate::prng::Prng;
use crate::table::{FILLER, TABLE_BRANCH};
use crate::Outcome;

/// "a listing of at most 32,768 bytes (more is number 1)"
const LIMIT: usize = 32_768;
const NOP: [u8; 2] = [0x15, 0];
const AL: u8 = 14;
/// Loops without an end: B to itself; ADDS and B; IT, an ADD that is done and one that is not, B.
const ENDLESS: [&[&[u8]]; 3] = [
    &[&[0x11, 0, 0, 14, 0xFC, 0xFF, 0xFF, 0xFF]],
    &[&[0x02, 0, 1, 3, 3, 200, 0, 0, 0], &[0x11, 0, 0, 14, 0xFA, 0xFF, 0xFF, 0xFF]],
    &[
        &[0x14, 0, 1, 2, 1],
        &[0x02, 0, 0, 3, 3, 3, 0, 0, 0],
        &[0x02, 0, 0, 4, 4, 3, 0, 0, 0],
        &[0x11, 0, 0, 14, 0xF6, 0xFF, 0xFF, 0xFF],
    ],
];
const TO_MEMORY: &[u8] = &[0x05, 1, 2, 2, 0x00, 0x20];
const TBB: &[u8] = &[TABLE_BRANCH, 0, 2, 2, 0];
const TBH: &[u8] = &[TABLE_BRANCH, 1, 2, 2, 0];
const SHORT_FILLER: &[u8] = &[FILLER, 4, 0];
/// Listings with fillers and table branches, and how their texts begin.
const FILLERS: [(&[&[u8]], &str); 15] = [
    (&[SHORT_FILLER], "end 8 steps 0\n"),
    (&[SHORT_FILLER, &NOP], "end 8 steps 0\n"),
    (&[&[FILLER, 0, 0]], "check 2 at 0\n"),
    (&[SHORT_FILLER, &[FILLER, 3, 0]], "check 2 at 3\n"),
    (&[SHORT_FILLER, &[FILLER, 2]], "check 2 at 3\n"),
    (&[&NOP, SHORT_FILLER], "check 4 at 2\n"),
    (&[&[0x14, 0, 0, 1, 0], SHORT_FILLER], "check 4 at 5\n"),
    // B to the end, to the filler, into it
    (&[&[0x11, 0, 0, AL, 2, 0, 0, 0], SHORT_FILLER], "end 0 steps 1\n"),
    (&[&[0x11, 0, 2, AL, 0, 0, 0, 0], SHORT_FILLER], "check 9 at 0\n"),
    (&[&[0x11, 0, 0, AL, 0, 0, 0, 0], SHORT_FILLER], "check 9 at 0\n"),
    // by entry 0 of memory to the next record, which may be none
    (&[TO_MEMORY, TBB, &NOP], "end 0 steps 3\n"),
    (&[TO_MEMORY, TBH, SHORT_FILLER, &NOP], "end 8 steps 2\n"),
    // no memory there
    (&[TBH, &NOP], "end 6 steps 0\n"),
    (&[&[TABLE_BRANCH, 0, 2, 15, 0], SHORT_FILLER], "end 6 steps 0\n"),
    (&[&[TABLE_BRANCH, 0, 2, 13, 0]], "check 3 at 0\n"),
];
const USED_UP: &str = "end 10 steps 1000000\n";
/// Steps done, up to the budget and one more than it.
const STEPS: [u32; 15] = [
    0, 1, 9, 10, 99, 100, 999, 1_000, 9_999, 10_000, 99_999, 100_000, 999_999, 1_000_000, 1_000_001,
];
/// Where a listing is refused; no records make up 1 or 3 bytes.
const PLACES: [usize; 11] = [0, 2, 9, 10, 99, 100, 999, 1_000, 9_999, 10_000, LIMIT - 1];

/// The texts are those that samples/ has.
pub fn samples(comparison: &mut Comparison) -> Outcome {
    for sample in crate::samples::samples()? {
        let (name, end) = (&sample.name, &sample.end);
        let text = comparison.put(&sample.listing)?;
        if text != *end {
            return Err(format!("{name}: written in samples/:\n{end}\nby both sides:\n{text}"));
        }
    }
    Ok(())
}

/// The empty listing; listings of the limit and one more: records that do nothing, and any, with a
/// mistake at times, which number 1 hides.
pub fn limits(comparison: &mut Comparison, prng: &mut Prng) -> Outcome {
    comparison.put(&[])?;
    for bytes in [LIMIT - 1, LIMIT, LIMIT + 1, 2 * LIMIT, 2 * LIMIT + 1] {
        comparison.put(&crossed(bytes).concat())?;
    }
    for bytes in [LIMIT, LIMIT + 1] {
        comparison.put(&vec![0; bytes])?;
        for mistakes in [0, 1, 1, 2] {
            comparison.put(&any(prng, bytes, mistakes))?;
        }
    }
    Ok(())
}

pub fn endless(comparison: &mut Comparison) -> Outcome {
    for records in ENDLESS {
        let text = comparison.put(&records.concat())?;
        if !text.starts_with(USED_UP) {
            return Err(format!("a loop without an end has this text:\n{text}"));
        }
    }
    Ok(())
}

pub fn steps(comparison: &mut Comparison) -> Outcome {
    for steps in STEPS {
        let text = comparison.put(&taking(steps))?;
        let front = match steps {
            1_000_001 => USED_UP.to_string(),
            _ => format!("end 0 steps {steps}\n"),
        };
        if !text.starts_with(&front) {
            return Err(format!("a listing that takes {steps} steps has this text:\n{text}"));
        }
    }
    Ok(())
}

/// Kind 0, which there is none of, at the place.
pub fn places(comparison: &mut Comparison) -> Outcome {
    for place in PLACES {
        let text = comparison.put(&[nothing(place).concat(), vec![0]].concat())?;
        if text != format!("check 2 at {place}\n") {
            return Err(format!("a listing with no record at {place} has this text:\n{text}"));
        }
    }
    Ok(())
}

/// Order 1 of paper 02, with the base 0x1000 and memory at 0x20000000 that a rehearsal has.
pub fn fillers(comparison: &mut Comparison) -> Outcome {
    for (records, front) in FILLERS {
        let text = comparison.put(&records.concat())?;
        if !text.starts_with(front) {
            return Err(format!("a listing that is to end with {front} has this text:\n{text}"));
        }
    }
    // as many as fit
    let text = comparison.put(&[FILLER, 0xFE, 0xFF].repeat(LIMIT / 3))?;
    if !text.starts_with("end 8 steps 0\n") {
        return Err(format!("a listing of fillers alone has this text:\n{text}"));
    }
    Ok(())
}

/// From the listing's start straight to its end.
fn crossed(bytes: usize) -> Records {
    let mut records = vec![vec![BRANCH, 0, 2, AL, 0, 0, 0, 0]];
    fill_up(&mut records, bytes);
    let end = end_of(&records);
    lead(&mut records[0], 0, end);
    records
}

/// So long that only a run that soon ends is not dear.
fn any(prng: &mut Prng, bytes: usize, mistakes: usize) -> Vec<u8> {
    loop {
        let mut records = long::records(prng, bytes);
        for _ in 0..mistakes {
            fault::make(prng, &mut records);
        }
        let listing = records.concat();
        if !is_dear(&listing) {
            return listing;
        }
    }
}

fn nothing(bytes: usize) -> Records {
    let mut records = Records::new();
    fill_up(&mut records, bytes);
    records
}

/// MOVW, MOVT, and rounds of SUBS and BNE; a NOP where the steps are odd, and nothing else where
/// they are few.
fn taking(steps: u32) -> Vec<u8> {
    if steps < 4 {
        return NOP.repeat(steps as usize);
    }
    let [a, b, c, d] = ((steps - 2) / 2).to_le_bytes();
    let mut records = vec![
        vec![0x05, 0, 2, 0, a, b],
        vec![0x05, 1, 2, 0, c, d],
        vec![0x02, 2, 1, 0, 0, 1, 0, 0, 0],
        [&[0x11, 0, 0, 1][..], &(-6i32).to_le_bytes()].concat(),
    ];
    if steps % 2 == 1 {
        records.push(NOP.to_vec());
    }
    records.concat()
}
