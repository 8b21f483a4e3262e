//! Branches near the ends of the addresses: "Address sums in a step, and branch targets, are taken
//! modulo 2^32".

use super::sights::Look;
use std::fmt;

const NAMES: [&str; 11] =
    ["B", "BL", "CBZ", "CBNZ", "BX", "BLX", "MOV", "ADD", "LDR", "LDR by index", "LDM"];
const SORTS: [&str; 4] = [
    "gone on to a next address past 2^32",
    "gone elsewhere where the next address is past 2^32",
    "target, or for loads an address, past 2^32",
    "the same below 0",
];
/// The reach of CBZ is forward; a register is not negative; BX and BLX have no sum.
const PAST: [usize; 9] = [0, 1, 2, 3, 6, 7, 8, 9, 10];
const BELOW: [usize; 4] = [0, 1, 8, 10];
const TOP: i64 = 1 << 32;
const PC: u8 = 15;

/// Steps done, by the branch and the sort.
pub struct Ends([[u64; SORTS.len()]; NAMES.len()]);

/// The branch that a record is: direct, or by a register or memory.
pub fn way(record: &[u8]) -> Option<usize> {
    match *record {
        [0x11, op @ 0..=1, ..] => Some(usize::from(op)),
        [0x13, op @ 0..=1, ..] => Some(2 + usize::from(op)),
        [0x12, op @ 0..=1, ..] => Some(4 + usize::from(op)),
        [0x01, 10, _, PC, ..] => Some(6),
        [0x01, 0, _, PC, ..] => Some(7),
        [0x0D, 0, _, PC, ..] => Some(8),
        [0x0E, 0, _, PC, ..] => Some(9),
        [0x10, 0..=1, .., list] if list & 0x80 != 0 => Some(10),
        _ => None,
    }
}

/// What a branch adds up, not modulo 2^32.
fn sum(look: &Look) -> Option<i64> {
    let value = |register: u8| i64::from(look.register(register));
    let operand = value(PC) + 4;
    Some(match *look.record {
        [0x11, _, _, _, a, b, c, d] => operand + i64::from(i32::from_le_bytes([a, b, c, d])),
        [0x13, _, _, _, offset] => operand + i64::from(offset),
        [0x01, 10, _, _, _, PC, ..] => operand,
        [0x01, 0, _, _, _, rm, ..] => operand + value(rm),
        [0x0D, _, _, _, PC, _, a, b] => (operand & !2) + i64::from(i16::from_le_bytes([a, b])),
        [0x0D, _, _, _, rn, _, a, b] => value(rn) + i64::from(i16::from_le_bytes([a, b])),
        [0x0E, _, _, _, rn, rm, n] => value(rn) + i64::from(look.register(rm) << n),
        [0x10, op, _, rn, _, a, b] => {
            let bytes = 4 * i64::from(u16::from_le_bytes([a, b]).count_ones());
            value(rn) + if op == 1 { -bytes } else { bytes }
        }
        _ => return None,
    })
}

impl Ends {
    pub fn new() -> Ends {
        Ends([[0; SORTS.len()]; NAMES.len()])
    }

    /// A step that was done.
    pub fn see(&mut self, look: &Look) {
        let way = match way(look.record) {
            Some(way) => way,
            None => return,
        };
        let next = i64::from(look.register(PC)) + look.machine_bytes();
        let went = look.after(PC) != next as u32;
        if next >= TOP {
            self.0[way][usize::from(went)] += 1;
        }
        match sum(look) {
            Some(sum) if went && sum >= TOP => self.0[way][2] += 1,
            Some(sum) if went && sum < 0 => self.0[way][3] += 1,
            _ => (),
        }
    }

    pub fn gaps(&self) -> Vec<String> {
        let mut gaps = Vec::new();
        for (way, counts) in self.0.iter().enumerate() {
            for (sort, &count) in counts.iter().enumerate() {
                let wanted = sort < 2 || [PAST.contains(&way), BELOW.contains(&way)][sort - 2];
                if wanted != (count > 0) {
                    gaps.push(format!("{}: {} {count} times", NAMES[way], SORTS[sort]));
                }
            }
        }
        gaps
    }
}

impl fmt::Display for Ends {
    fn fmt(&self, f: &mut fmt::Formatter<'_>) -> fmt::Result {
        for (sort, name) in SORTS.iter().enumerate() {
            let counts: Vec<String> = NAMES
                .iter()
                .zip(&self.0)
                .filter(|(_, counts)| counts[sort] > 0)
                .map(|(way, counts)| format!("{way} {}", counts[sort]))
                .collect();
            writeln!(f, "{name}: {}", counts.join(", "))?;
        }
        Ok(())
    }
}
