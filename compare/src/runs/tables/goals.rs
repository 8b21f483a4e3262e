//! Where the entries of the table lead.

use super::code::{Code, LINK};
use crate::checks::listing::{end_of, spots};
use crate::image::Image;
use crate::prng::Prng;
use crate::table::FILLER;

const TOP: i64 = 1 << 32;

/// From the base, all that is at or behind the record after the table branch, by sort.
#[derive(Default)]
struct Goals {
    outside: Vec<i64>,
    fillers: Vec<i64>,
    in_fillers: Vec<i64>,
    in_blocks: Vec<i64>,
    in_records: Vec<i64>,
    end: i64,
}

impl Goals {
    fn new(prng: &mut Prng, code: &Code) -> Goals {
        let (records, spots, end) = (&code.records, spots(&code.records), end_of(&code.records));
        let mut goals = Goals { end, ..Goals::default() };
        for at in code.branch + 1..records.len() {
            let (spot, past) = (spots[at], spots.get(at + 1).map_or(end, |spot| spot.at));
            let inside = (past - spot.at) / 2 - 1;
            let some = spot.at + 2 + 2 * i64::from(prng.below(inside.max(1) as u32));
            if records[at][0] == FILLER {
                goals.fillers.push(spot.at);
                goals.in_fillers.extend((inside > 0).then_some(some));
            } else {
                goals.in_records.extend((inside > 0).then_some(some));
                let list = if spot.outside { &mut goals.outside } else { &mut goals.in_blocks };
                list.push(spot.at);
            }
        }
        goals
    }

    /// Of some sort; the end where there is none.
    fn some(&self, prng: &mut Prng) -> i64 {
        let by = 2 + 2 * i64::from(prng.below(4));
        let list = match prng.below(20) {
            0..=2 => &self.outside,
            3..=5 => &self.fillers,
            6..=8 => &self.in_fillers,
            9..=12 => &self.in_blocks,
            13..=15 => &self.in_records,
            16 | 17 => return self.end + by,
            _ => return self.end,
        };
        match list[..] {
            [] => self.end,
            _ => prng.pick(list),
        }
    }
}

/// What Rm holds at the table branch, and the entry there. Rm is set, but in a loop, which sets it
/// itself. R10 leads to some place too.
pub fn entries(prng: &mut Prng, code: &Code, base: u32, image: &mut Image) -> Vec<(u32, u32)> {
    let goals = Goals::new(prng, code);
    let link = base.wrapping_add(goals.some(prng) as u32) | 1;
    image.registers[usize::from(LINK)] = link;
    if code.rounds > 0 {
        return looped(prng, code, &goals);
    }
    let (small, word) = (prng.below(20), prng.word());
    let index = if code.rn == 15 { small } else { prng.pick(&[0, small, small, word]) };
    image.registers[usize::from(code.rm)] = index;
    let target = goals.some(prng);
    vec![(index, entry(prng, code, base, target))]
}

fn looped(prng: &mut Prng, code: &Code, goals: &Goals) -> Vec<(u32, u32)> {
    let spots = spots(&code.records);
    let mut entries = Vec::new();
    for index in 1..=u32::from(code.rounds) {
        let case = spots[prng.pick(&code.cases)].at;
        let target = if prng.once_in(16) { goals.some(prng) } else { case };
        entries.push((index, entry(prng, code, 0, target)));
    }
    entries
}

/// "The branch goes to address + 4 plus twice the entry": to the target, or where 2^32 is near at times
/// to that or past it; the highest entry where the target is too far.
fn entry(prng: &mut Prng, code: &Code, base: u32, target: i64) -> u32 {
    let highest = if code.halves { 0xFFFF } else { 0xFF };
    let from = spots(&code.records)[code.branch].at + 4;
    let to_top = (TOP - i64::from(base) - from) / 2;
    let wanted = match prng.below(2) {
        0 if to_top <= highest => to_top + i64::from(prng.below(3)),
        _ => (target - from) / 2,
    };
    wanted.min(highest) as u32
}
