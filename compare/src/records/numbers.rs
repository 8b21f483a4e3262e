//! Numbers of more than one byte, and small fields that bind each other: every value where there are
//! few enough, else the limits, what is near them, and numbers at random.

use super::answers::Comparison;
use crate::prng::Prng;
use crate::table::{FILLER, TABLE_BRANCH};
use crate::Outcome;
use std::ops::RangeInclusive;

const SEED: u64 = 0x02_0D_10_11;
const RANDOM: usize = 20_000;
/// From a limit: odd and even neighbours on both sides, and the next multiples of 4.
const NEAR: RangeInclusive<i32> = -4..=4;

fn half(comparison: &mut Comparison, head: &[u8], number: u16) -> Outcome {
    comparison.bytes(&[head, &number.to_le_bytes()].concat())
}

fn word(comparison: &mut Comparison, head: &[u8], number: u32) -> Outcome {
    comparison.bytes(&[head, &number.to_le_bytes()].concat())
}

/// ADD, MOV and TEQ, whose fields Rd, Rn and S are bound in three ways.
const CONSTANT_HEADS: [[u8; 5]; 3] = [[2, 0, 0, 1, 2], [2, 10, 3, 1, 0], [2, 15, 1, 0, 2]];

/// "an 8-bit number shifted left, 00XY00XY, XY00XY00 or XYXYXYXY". The 8-bit number is rotated here,
/// so that those that leave the word at its top and come in again below are put too.
pub fn constants(comparison: &mut Comparison) -> Outcome {
    for byte in 0..=255u32 {
        let rotated = (0..32).map(|by| byte.rotate_left(by));
        let repeated = [0x0001_0001, 0x0100_0100, 0x0101_0101].map(|ones| byte * ones);
        for constant in rotated.chain(repeated) {
            for (head, by) in CONSTANT_HEADS.iter().flat_map(|head| NEAR.map(move |by| (head, by)))
            {
                word(comparison, head, constant.wrapping_add(by as u32))?;
            }
            for bit in 0..32 {
                word(comparison, &CONSTANT_HEADS[0], constant ^ 1 << bit)?;
            }
        }
    }
    let mut prng = Prng::new(SEED);
    for _ in 0..RANDOM {
        word(comparison, &prng.pick(&CONSTANT_HEADS), prng.word())?;
    }
    Ok(())
}

/// Kinds 04 and 05, with all that two bytes can hold.
pub fn halves(comparison: &mut Comparison) -> Outcome {
    let heads: [&[u8]; 5] =
        [&[4, 0, 0, 1, 2], &[4, 1, 2, 1, 15], &[4, 1, 0, 13, 13], &[5, 0, 2, 1], &[5, 1, 0, 1]];
    for head in heads {
        for number in 0..=0xFFFF {
            half(comparison, head, number)?;
        }
    }
    Ok(())
}

/// Kind 17, with all that its two bytes can hold: "2 to 65,534 machine bytes, even".
pub fn fillers(comparison: &mut Comparison) -> Outcome {
    for number in 0..=0xFFFF {
        half(comparison, &[FILLER], number)?;
    }
    Ok(())
}

/// Kind 16: both ops, and one more, with all pairs of registers and some more, and every form that
/// has a name and two more.
pub fn table_branches(comparison: &mut Comparison) -> Outcome {
    for (rn, rm) in (0..=17).flat_map(|rn| (0..=17).map(move |rm| (rn, rm))) {
        for (op, form) in (0..3).flat_map(|op| (0..6).map(move |form| (op, form))) {
            comparison.bytes(&[TABLE_BRANCH, op, form, rn, rm])?;
        }
    }
    Ok(())
}

/// Kinds 0D and 0F: all offsets for LDR and LDRD, and those at some limit for every op.
pub fn offsets(comparison: &mut Comparison) -> Outcome {
    for mode in 0..3 {
        let heads: [&[u8]; 3] =
            [&[0x0D, 0, 0, 1, 2, mode], &[0x0D, 0, 2, 1, 15, mode], &[0x0F, 0, 2, 1, 2, 3, mode]];
        for head in heads {
            for offset in 0..=0xFFFF {
                half(comparison, head, offset)?;
            }
        }
    }
    let limits = [0, 255, 256, 1020, 4095, 0x8000];
    for limit in limits.into_iter().flat_map(|limit: i32| [limit, -limit]) {
        for offset in NEAR.map(|by| (limit + by) as u16) {
            for (op, mode) in (0..9).flat_map(|op| (0..4).map(move |mode| (op, mode))) {
                for rn in [1, 2, 13, 15] {
                    half(comparison, &[0x0D, op, 0, 1, rn, mode], offset)?;
                    half(comparison, &[0x0F, op, 2, 1, 3, rn, mode], offset)?;
                }
            }
        }
    }
    Ok(())
}

/// Kind 10: all lists for every op, with and without write-back; then all base registers.
pub fn lists(comparison: &mut Comparison) -> Outcome {
    for (op, write_back) in (0..4).flat_map(|op| [(op, 0), (op, 1)]) {
        for list in 0..=0xFFFF {
            half(comparison, &[0x10, op, op % 2 * 2, 3, write_back], list)?;
        }
        for (rn, bit) in (0..16).flat_map(|rn| (0..16).map(move |bit| (rn, bit))) {
            for list in [0, 0x1002, 0x4002, 0x8002, 0xC002, 0x5FFF, 0x9FFF] {
                half(comparison, &[0x10, op, 2, rn, write_back], list ^ 1 << bit)?;
            }
        }
    }
    Ok(())
}

/// "Branch offsets are even: B with AL and BL -16777216 to 16777214, other B -1048576 to 1048574".
pub fn branches(comparison: &mut Comparison) -> Outcome {
    let mut prng = Prng::new(SEED);
    let limits = [0, 0x8000, 1_048_576, 16_777_216, i32::MIN];
    for condition in 0..=15 {
        for (op, form) in [(0, 0), (0, 1), (0, 2), (1, 0), (1, 2), (1, 3), (2, 2)] {
            let head = [0x11, op, form, condition];
            for limit in limits.into_iter().flat_map(|limit| [limit, limit.wrapping_neg()]) {
                for by in NEAR {
                    word(comparison, &head, limit.wrapping_add(by) as u32)?;
                }
            }
            for _ in 0..RANDOM / 100 {
                // a random size first: most whole words are far out of reach
                let offset = prng.word() as i32 >> prng.below(16);
                word(comparison, &head, offset as u32)?;
            }
        }
    }
    Ok(())
}

/// Shift and amount; bits, shift and amount of 0A; lsb and width; all fields of IT and of CBZ.
pub fn small(comparison: &mut Comparison) -> Outcome {
    for (shift, n) in (0..6).flat_map(|shift| (0..36).map(move |n| (shift, n))) {
        for op in 0..16 {
            comparison.bytes(&[0x01, op, 1, 0, 0, 2, shift, n])?;
            comparison.bytes(&[0x01, op, 0, 13, 13, 2, shift, n])?;
            comparison.bytes(&[0x01, op, 0, 15, 15, 2, shift, n])?;
        }
        for (op, bits) in [0, 1].into_iter().flat_map(|op| (0..36).map(move |bits| (op, bits))) {
            comparison.bytes(&[0x0A, op, 2, 1, bits, 2, shift, n])?;
        }
    }
    for (lsb, width) in (0..36).flat_map(|lsb| (0..36).map(move |width| (lsb, width))) {
        for op in 0..4 {
            comparison.bytes(&[0x0B, op, 2, 1, 0, lsb, width])?;
        }
    }
    for (one, other) in (0..=17).flat_map(|one| (0..=255).map(move |other| (one, other))) {
        for count in 0..7 {
            comparison.bytes(&[0x14, 0, one, count, other])?;
        }
        for op in 0..3 {
            comparison.bytes(&[0x13, op, 0, one, other])?;
        }
    }
    Ok(())
}
