//! The memory that holds the table, or just does not.

use super::code::Code;
use crate::checks::listing::spots;
use crate::image::Image;
use crate::prng::Prng;
use crate::steps::scene::fill;

const TABLE: u32 = 0x2000_0000;
const PC: u8 = 15;
const TOP: i64 = 1 << 32;

/// Gives memory and its base, and sets Rn, or Rm too where the two are one.
pub fn lend(
    prng: &mut Prng,
    code: &Code,
    base: u32,
    entries: &[(u32, u32)],
    image: &mut Image,
) -> (Vec<u8>, u32) {
    let (scale, bytes) = (u32::from(code.halves), 1 + i64::from(code.halves));
    let first = entries.first().map_or(0, |&(index, _)| index << scale);
    let last = entries.last().map_or(0, |&(index, _)| index << scale);
    // of the lowest entry
    let at = match code.rn {
        PC => {
            base.wrapping_add(spots(&code.records)[code.branch].at as u32 + 4).wrapping_add(first)
        }
        _ => TABLE + prng.below(16),
    };
    let at = if code.rn == code.rm { one_register(code, at, image) } else { at };
    if code.rn != code.rm && code.rn != PC {
        image.registers[usize::from(code.rn)] = at.wrapping_sub(first);
    }
    let from = i64::from(at);
    let past = from + i64::from(last.wrapping_sub(first)) + bytes;
    let [start, end] = extent(prng, from, past).map(|address| address.clamp(0, TOP));
    let mut memory = vec![0; (end - start) as usize];
    fill(prng, &mut memory);
    for &(index, entry) in entries {
        let entry_at = from + i64::from((index << scale).wrapping_sub(first)) - start;
        put(&mut memory, entry_at, &entry.to_le_bytes()[..bytes as usize]);
    }
    // what ends at 2^32 can be of 0 bytes
    (memory, start.min(TOP - 1) as u32)
}

/// Rn and Rm are one: the sum is twice or three times what it holds.
fn one_register(code: &Code, at: u32, image: &mut Image) -> u32 {
    let times = if code.halves { 3 } else { 2 };
    image.registers[usize::from(code.rn)] = at / times;
    at / times * times
}

/// About the entries: all of them at the ends of memory or within; the first or the last, or one byte
/// of it, not in memory; none.
fn extent(prng: &mut Prng, from: i64, past: i64) -> [i64; 2] {
    let (before, after) = (1 + i64::from(prng.below(20)), 1 + i64::from(prng.below(20)));
    match prng.below(20) {
        0 => [from, from],
        1 => [past, past + after],
        2 => [from - before, from],
        3 => [from - before, past - 1],
        4 => [from + 1, past + after],
        5 | 6 => [from, past],
        7 | 8 => [from, past + after],
        9 | 10 => [from - before, past],
        11 => [from + 0x1000, past + 0x1000],
        _ => [from - before, past + after],
    }
}

/// As far as it is in memory.
pub fn put(memory: &mut [u8], at: i64, bytes: &[u8]) {
    for (by, &byte) in (0..).zip(bytes) {
        let slot = usize::try_from(at + by).ok().and_then(|at| memory.get_mut(at));
        if let Some(slot) = slot {
            *slot = byte;
        }
    }
}
