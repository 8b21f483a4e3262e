//! Kinds 16 and 17, of order 1 of paper 02. They stand beside the stock of paper 01, so that what is
//! picked from that stays as it was.

use super::{with_half, Stock};
use crate::table::{FILLER, TABLE_BRANCH};

/// Table branches that are done outside a block. "Rn not 13, Rm not 13 or 15": Rn 15, R14 and Rn = Rm
/// are allowed (S6).
pub fn tables() -> Stock {
    let registers = [(0, 1), (1, 0), (12, 14), (14, 12), (15, 0), (15, 14), (3, 3), (14, 14)];
    let ops = [0, 1].into_iter();
    ops.flat_map(|op| registers.map(|(rn, rm)| vec![TABLE_BRANCH, op, 2, rn, rm])).collect()
}

/// "2 to 65,534 machine bytes, even". Each is a record, but "stepping a filler alone is 3".
pub fn fillers() -> Stock {
    [2, 4, 0x0100, 0x01FE, 0x1516, 0x8000, 0xFF02, 0xFFFE]
        .map(|number| with_half(&[FILLER], number))
        .to_vec()
}
