//! Listings that are the same in every run: as many fillers as fit, and branches as far as they reach.

use crate::checks::listing::{end_of, lead, spots, Records};
use crate::checks::{Comparison, BASE};
use crate::table::{FILLER, TABLE_BRANCH};
use crate::Outcome;

const LIMIT: usize = 65_536;
const HIGHEST_END: i64 = 0xFFFF_FFFE;
const MOST: u16 = 0xFFFE;
const NOP: [u8; 2] = [0x15, 0];
const BX: [u8; 4] = [0x12, 0, 0, 14];
/// Offsets from the limit of a branch, and of a target from where it would land.
const NEAR: [i64; 4] = [-4, -2, 0, 2];

fn filler(number: u16) -> Vec<u8> {
    [&[FILLER][..], &number.to_le_bytes()].concat()
}

/// "up to 21,845 × 65,534 bytes of fillers" (S23), more than 2^30, with the end just below the highest
/// one, at it and above; the same with one filler that is none; TBB and TBH between fillers; and one
/// byte more than a listing may have.
pub fn many(comparison: &mut Comparison) -> Outcome {
    for number in [2, 0x8000, MOST] {
        let records = vec![filler(number); LIMIT / 3];
        ends(comparison, &records)?;
        for at in [0, LIMIT / 6, LIMIT / 3 - 1] {
            for bad in [0, 1, 0xFFFF] {
                let mut records = records.clone();
                records[at] = filler(bad);
                comparison.put(&records.concat(), BASE)?;
            }
        }
        for length in [LIMIT - 3, LIMIT - 2, LIMIT - 1] {
            comparison.put(&records.concat()[..length], BASE)?;
        }
        let branch = |op| vec![TABLE_BRANCH, op, 2, 15, op];
        let pairs = [branch(0), filler(number), branch(1), filler(number)];
        ends(comparison, &pairs.into_iter().cycle().take(LIMIT / 4).collect::<Records>())?;
        // 65,536 bytes, and 65,537
        for nops in [[0, 5], [0, 1], [1, 5]] {
            let count = if nops == [0, 1] { LIMIT / 3 } else { (LIMIT - 10) / 3 };
            let [front, back] = nops.map(|nops| vec![NOP.to_vec(); nops]);
            ends(comparison, &[front, vec![filler(number); count], back].concat())?;
        }
    }
    Ok(())
}

/// At bases from which the end is about the highest one, and at others.
fn ends(comparison: &mut Comparison, records: &Records) -> Outcome {
    let (listing, end) = (records.concat(), end_of(records));
    let near = [-4, -2, 0, 2, 4, 0x1_0000].map(|by| (HIGHEST_END - end + by) as u32);
    for base in near.into_iter().chain([0, 1, 2, BASE, 0x8000_0000, 0xFFFF_FFFE]) {
        comparison.put(&listing, base)?;
    }
    Ok(())
}

/// "B with AL and BL -16777216 to 16777214, other B -1048576 to 1048574", over fillers, to a record, to
/// the filler before it and past it; and as far as is too far.
pub fn reaches(comparison: &mut Comparison) -> Outcome {
    let heads = [[0x11, 0, 0, 14], [0x11, 0, 2, 14], [0x11, 1, 2, 14], [0x11, 0, 0, 3]];
    for (head, by) in heads.into_iter().flat_map(|head| NEAR.map(|by| (head, by))) {
        let reach: i64 = if head[3] == 14 { 16_777_216 } else { 1_048_576 };
        let branch = [&head[..], &[0; 4]].concat();
        let bytes = if head[2] == 2 { 4 } else { 2 };
        // the target is as far from 4 bytes after the branch as it reaches, and a little more or less
        let on = over(reach - 2 + by + 4 - bytes - 2);
        let on = [vec![branch.clone(), BX.to_vec()], on, vec![NOP.to_vec(); 2]].concat();
        go(comparison, on, 0)?;
        let back = [vec![NOP.to_vec(), BX.to_vec()], over(reach + by - 4 - 4)].concat();
        let at = back.len();
        go(comparison, [back, vec![branch]].concat(), at)?;
    }
    Ok(())
}

/// Fillers of so many bytes together.
fn over(bytes: i64) -> Records {
    let (full, rest) = (bytes / i64::from(MOST), bytes % i64::from(MOST));
    let mut records = vec![filler(MOST); full as usize];
    if rest > 0 {
        records.push(filler(rest as u16));
    }
    records
}

/// The branch goes to the first NOP, and beside it.
fn go(comparison: &mut Comparison, mut records: Records, branch: usize) -> Outcome {
    let spots = spots(&records);
    let target = (0..records.len()).find(|&at| records[at] == NOP).map_or(0, |at| spots[at].at);
    for by in NEAR {
        lead(&mut records[branch], spots[branch].at, target + by);
        comparison.put(&records.concat(), BASE)?;
    }
    Ok(())
}
