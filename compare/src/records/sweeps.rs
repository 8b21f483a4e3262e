//! Bytes near the records of the stock.

use super::answers::Comparison;
use crate::table::{form_place, KINDS};
use crate::Outcome;

/// All registers and one more, the small limits on both sides, and the ends of a byte.
const TELLING: [u8; 24] =
    [0, 1, 2, 3, 4, 5, 6, 7, 8, 9, 10, 11, 12, 13, 14, 15, 16, 24, 31, 32, 33, 126, 128, 255];
/// The listing has more bytes than a check would take: a place is any number.
const LONG: usize = 65_540;

/// Every value of every single byte.
pub fn single_bytes(comparison: &mut Comparison, stock: &[Vec<u8>]) -> Outcome {
    for record in stock {
        let mut near = record.clone();
        for at in 0..record.len() {
            for value in 0..=255 {
                near[at] = value;
                comparison.bytes(&near)?;
            }
            near[at] = record[at];
        }
    }
    Ok(())
}

/// Each shorter length, none among them, and one byte more or two.
pub fn lengths(comparison: &mut Comparison, stock: &[Vec<u8>]) -> Outcome {
    for record in stock {
        for length in 0..record.len() {
            comparison.bytes(&record[..length])?;
        }
        for value in 0..=255 {
            comparison.bytes(&[record, &[value][..]].concat())?;
            comparison.bytes(&[record, &[value, 255 - value][..]].concat())?;
        }
    }
    Ok(())
}

/// Two bytes past the kind and the op at once, where a rule binds two fields.
pub fn two_bytes(comparison: &mut Comparison, samples: &[Vec<u8>]) -> Outcome {
    for record in samples {
        let start = form_place(record).unwrap_or(1);
        let mut near = record.clone();
        for first in start..record.len() {
            for second in first + 1..record.len() {
                two_bytes_at(comparison, &mut near, [first, second])?;
                near.copy_from_slice(record);
            }
        }
    }
    Ok(())
}

fn two_bytes_at(comparison: &mut Comparison, near: &mut [u8], at: [usize; 2]) -> Outcome {
    for one in TELLING {
        for other in TELLING {
            (near[at[0]], near[at[1]]) = (one, other);
            comparison.bytes(near)?;
        }
    }
    Ok(())
}

/// All pairs of a kind byte and an op byte, before the rest of records of every length and before
/// zeros; a kind that there is also before the rest of every sample, made as long as the kind is.
pub fn kinds_and_ops(comparison: &mut Comparison, samples: &[Vec<u8>]) -> Outcome {
    let lengths: Vec<&Vec<u8>> =
        (2..10).filter_map(|length| samples.iter().find(|record| record.len() == length)).collect();
    for (kind, op) in (0..=255).flat_map(|kind| (0..=255).map(move |op| (kind, op))) {
        for record in &lengths {
            let mut bytes = vec![0; record.len()];
            (bytes[0], bytes[1]) = (kind, op);
            comparison.bytes(&bytes)?;
            bytes[2..].copy_from_slice(&record[2..]);
            comparison.bytes(&bytes)?;
        }
        if let Some(own) = samples.iter().find(|record| record[0] == kind) {
            for record in samples {
                let mut bytes = record.clone();
                bytes.resize(own.len(), 0);
                (bytes[0], bytes[1]) = (kind, op);
                comparison.bytes(&bytes)?;
            }
        }
    }
    Ok(())
}

/// Kinds 16 and 17 with every op byte, or first byte of the number, before the rest of every record of
/// the stock; and every kind with every such byte before the rest of theirs: each made as long as the
/// kind is.
pub fn later_kinds(comparison: &mut Comparison, stock: &[Vec<u8>], later: &[Vec<u8>]) -> Outcome {
    let own = stock.iter().chain(later);
    let mut lengths = [None; KINDS + 1];
    for record in own {
        lengths[usize::from(record[0])] = Some(record.len());
    }
    for (kind, length) in (0..).zip(lengths).filter_map(|(kind, length)| Some((kind, length?))) {
        let is_later = later.iter().any(|record| record[0] == kind);
        let rests = if is_later { stock } else { &[] }.iter().chain(later);
        for (rest, op) in rests.flat_map(|rest| (0..=255).map(move |op| (rest, op))) {
            let mut bytes = rest.clone();
            bytes.resize(length, 0);
            (bytes[0], bytes[1]) = (kind, op);
            comparison.bytes(&bytes)?;
        }
    }
    Ok(())
}

/// Every kind byte with a body of every length, up to two bytes more than any kind has: of one byte
/// repeated.
pub fn bodies(comparison: &mut Comparison) -> Outcome {
    for (kind, length) in (0..=255).flat_map(|kind| (0..=10).map(move |length| (kind, length))) {
        for value in [0, 1, 2, 3, 4, 12, 13, 14, 15, 16, 254, 255] {
            let mut bytes = vec![value; 1 + length];
            bytes[0] = kind;
            comparison.bytes(&bytes)?;
        }
    }
    Ok(())
}

/// All of the stock in one long listing, measured at every place and past the end.
pub fn one_listing(comparison: &mut Comparison, stock: &[Vec<u8>]) -> Outcome {
    let once = stock.concat();
    let listing = once.repeat(LONG / once.len() + 1);
    for place in (0..listing.len() + 3).chain([usize::MAX - 1, usize::MAX]) {
        comparison.measure(&listing, place)?;
    }
    Ok(())
}
