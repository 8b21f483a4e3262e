//! Direct branches whose target, not taken modulo 2^32, is past either end of the addresses, and
//! accepted listings at these ends.

use crate::counts::Counts;
use crate::walk::{end_of, walk};
use std::fmt;

const NAMES: [&str; 8] = [
    "9 for B past 2^32",
    "9 for BL past 2^32",
    "9 for CBZ past 2^32",
    "9 for CBNZ past 2^32",
    "9 for B below 0",
    "9 for BL below 0",
    "accepted with a branch and base 0",
    "accepted with a branch and end FFFFFFFE",
];
const BELOW: usize = 4;
const AT_0: usize = 6;
const AT_TOP: usize = 7;
const ACCEPTED: u32 = 0;
const NO_LANDING: u32 = 9;
const TOP: i64 = 1 << 32;
const HIGHEST_END: i64 = TOP - 2;

pub struct Ends(Counts<8>);

impl Ends {
    pub fn new() -> Ends {
        Ends(Counts::new("at the ends of the addresses", NAMES))
    }

    pub fn see(&mut self, listing: &[u8], base: u32, number: u32, place: u32) {
        match number {
            NO_LANDING => self.astray(listing, base, place as usize),
            ACCEPTED if base == 0 || base >= 0xFFFC_0000 => self.accepted(listing, base),
            _ => (),
        }
    }

    fn astray(&mut self, listing: &[u8], base: u32, place: usize) {
        let address = i64::from(base) + end_of(&listing[..place]);
        let (op, target) = match listing[place..] {
            [0x11, op, _, _, a, b, c, d, ..] => (op, i32::from_le_bytes([a, b, c, d])),
            [0x13, op, _, _, offset, ..] => (2 + op, i32::from(offset)),
            _ => return,
        };
        match address + 4 + i64::from(target) {
            TOP.. => self.0.add(op.into()),
            i64::MIN..=-1 => self.0.add(BELOW + usize::from(op)),
            _ => (),
        }
    }

    fn accepted(&mut self, listing: &[u8], base: u32) {
        if !walk(listing).any(|item| matches!(item.record[0], 0x11 | 0x13)) {
            return;
        }
        if base == 0 {
            self.0.add(AT_0);
        }
        if i64::from(base) + end_of(listing) == HIGHEST_END {
            self.0.add(AT_TOP);
        }
    }

    pub fn gaps(&self) -> Vec<String> {
        self.0.gaps(1)
    }
}

impl fmt::Display for Ends {
    fn fmt(&self, f: &mut fmt::Formatter<'_>) -> fmt::Result {
        writeln!(f, "{}", self.0)
    }
}
