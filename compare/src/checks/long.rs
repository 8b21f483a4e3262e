//! Listings at the limit of 65,536 bytes.

use super::listing::{end_of, fill_up, lead, retarget, some, spots, Records, BRANCH};
use super::{base, fault, Comparison, BASE};
use crate::prng::Prng;
use crate::Outcome;

const LIMIT: usize = 65_536;
const LISTINGS: usize = 60;
/// A block and what fits before the limit are shorter than this.
const ROOM: usize = 64;
const NOP: [u8; 2] = [0x15, 0];

pub fn listings(comparison: &mut Comparison, prng: &mut Prng) -> Outcome {
    far(comparison)?;
    for bytes in [LIMIT - 1, LIMIT, LIMIT + 1] {
        for base in [0, BASE, 0xFFFE_FFFE, 0xFFFF_0000] {
            // 32,768 landing places and the end; the odd byte is no record
            comparison.put(&[&NOP.repeat(bytes / 2)[..], &[0x15][..bytes % 2]].concat(), base)?;
        }
        for _ in 0..LISTINGS / 3 {
            let mut records = records(prng, bytes);
            if prng.once_in(2) {
                fault::make(prng, &mut records);
            }
            comparison.put(&records.concat(), base::base(prng, end_of(&records)))?;
        }
    }
    Ok(())
}

/// A branch at the first or the last of 32,765 records, from one end of the listing to the other or
/// just past it: 65,532 or, with records of 4 machine bytes, 131,060 machine bytes.
fn far(comparison: &mut Comparison) -> Outcome {
    for (form, at) in [(0, 0), (0, 32_764), (2, 0), (2, 32_764)] {
        let mut records = vec![vec![0x15, form]; 32_764];
        records.insert(at, vec![BRANCH, 0, form, 14, 0, 0, 0, 0]);
        let (from, end) = (spots(&records)[at].at, end_of(&records));
        for target in (-4..10).chain(end - 10..end + 4).filter(|target| target % 2 == 0) {
            lead(&mut records[at], from, target);
            comparison.put(&records.concat(), BASE)?;
        }
    }
    Ok(())
}

/// A listing of just so many bytes that is accepted but for its length.
pub fn records(prng: &mut Prng, bytes: usize) -> Records {
    let (mut records, mut length, mut measured) = (Records::new(), 0, 0);
    while length < bytes - ROOM {
        some(prng, &mut records);
        length += records[measured..].iter().map(Vec::len).sum::<usize>();
        measured = records.len();
    }
    fill_up(&mut records, bytes);
    retarget(prng, &mut records);
    records
}
