//! Listings that are the same in every run.

use super::{Comparison, BASE};
use crate::Outcome;

const BASES: [u32; 10] =
    [0, 1, 2, 0x1000, 0x7FFF_FFFE, 0x8000_0000, 0x8000_0001, 0xFFFF_FFFC, 0xFFFF_FFFE, 0xFFFF_FFFF];
/// Where bases pass from the top to 0.
const LOW: u32 = 0xFFFF_FFE0;
const NOP: [u8; 2] = [0x15, 0];
const LONG_NOP: [u8; 2] = [0x15, 2];

pub fn empty(comparison: &mut Comparison) -> Outcome {
    for base in BASES {
        comparison.put(&[], base)?;
        comparison.put(&NOP, base)?;
    }
    Ok(())
}

/// CBZ and CBNZ with every offset, also those that are too far or odd, before so many records that
/// the target is short of the end, the end itself, or past it; before records of 2 machine bytes,
/// of 4, and a block.
pub fn reaches(comparison: &mut Comparison) -> Outcome {
    for (op, offset) in [0, 1].into_iter().flat_map(|op| (0..=131).map(move |offset| (op, offset)))
    {
        let register = offset & 7;
        for count in 0..=66 {
            for record in [&NOP[..], &LONG_NOP, &[0x14, 0, 0, 1, 0, 0x15, 2]] {
                let listing =
                    [&[0x13, op, 0, register, offset][..], &record.repeat(count)].concat();
                comparison.put(&listing, BASE)?;
            }
        }
    }
    Ok(())
}

/// The end of the listing near the top, or its base near 0: a direct branch by every small offset at
/// every record of a few, the addresses of which and of whose targets pass 2^32 or go below 0.
pub fn ends(comparison: &mut Comparison) -> Outcome {
    let long = (-16..=16i32).flat_map(|offset| {
        [0, 1].map(|op| [&[0x11, op, 2, 14][..], &offset.to_le_bytes()].concat())
    });
    let short = (0..=16).flat_map(|offset| [0, 1].map(|op| vec![0x13, op, 0, 3, offset]));
    for branch in long.chain(short) {
        for (at, base) in (0..4).flat_map(|at| (0..40).map(move |by| (at, LOW.wrapping_add(by)))) {
            let (before, after) = (LONG_NOP.repeat(at), NOP.repeat(4 - at));
            comparison.put(&[&before[..], &branch, &after].concat(), base)?;
        }
    }
    Ok(())
}
