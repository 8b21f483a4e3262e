//! Where a record reads or writes memory, and how much of that is in memory.

use crate::steps::aim::width;

const PC: u8 = 15;

#[derive(Clone, Copy, PartialEq, Eq)]
pub enum Reach {
    Whole,
    First,
    Last,
    Outside,
}
use Reach::*;

impl Reach {
    pub fn words(self) -> &'static str {
        match self {
            Whole => "all of it in memory",
            First => "its first bytes in memory",
            Last => "its last bytes in memory",
            Outside => "outside memory",
        }
    }
}

/// The first address and the number of bytes of an access by the record at an address; None for a
/// record that makes none.
pub fn accessed(record: &[u8], address: u32, get: impl Fn(u8) -> u32) -> Option<(u32, u32)> {
    let pc = address.wrapping_add(4);
    let base = |rn: u8| if rn == PC { pc & !3 } else { get(rn) };
    let moved = |rn: u8, mode: u8, offset: [u8; 2]| match mode {
        2 => base(rn),
        _ => base(rn).wrapping_add(i16::from_le_bytes(offset) as u32),
    };
    Some(match *record {
        [0x0D, op, _, _, rn, mode, a, b] => (moved(rn, mode, [a, b]), width(op)),
        [0x0E, op, _, _, rn, rm, n] => (get(rn).wrapping_add(get(rm) << n), width(op)),
        [0x0F, _, _, _, _, rn, mode, a, b] => (moved(rn, mode, [a, b]), 8),
        [0x10, op, _, rn, _, a, b] => {
            let bytes = 4 * u16::from_le_bytes([a, b]).count_ones();
            (get(rn).wrapping_sub(if op & 1 == 1 { bytes } else { 0 }), bytes)
        }
        [0x16, op, _, rn, rm] => {
            let table = if rn == PC { pc } else { get(rn) };
            (table.wrapping_add(get(rm) << op), 1 + u32::from(op))
        }
        _ => return None,
    })
}

/// Of an access, beside a memory that is as long or longer.
pub fn reach((address, bytes): (u32, u32), base: u32, length: usize) -> Reach {
    let (base, first) = (u64::from(base), u64::from(address));
    let inside = |address: u64| base <= address && address < base + length as u64;
    match (inside(first), inside(first + u64::from(bytes) - 1)) {
        (true, true) => Whole,
        (true, false) => First,
        (false, true) => Last,
        (false, false) => Outside,
    }
}
