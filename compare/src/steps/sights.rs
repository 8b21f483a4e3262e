//! What must have been among the steps done, beside every kind, op and condition: what random
//! numbers hit only when they are aimed.

use crate::{image, table};

/// A step done.
pub struct Look<'a> {
    pub image: &'a [u8],
    pub record: &'a [u8],
    pub image_after: &'a [u8],
}

impl Look<'_> {
    pub fn register(&self, register: u8) -> u32 {
        image::register(self.image, register.into())
    }

    pub fn after(&self, register: u8) -> u32 {
        image::register(self.image_after, register.into())
    }

    pub fn machine_bytes(&self) -> i64 {
        match table::form_of(self.record) & 2 {
            0 => 2,
            _ => 4,
        }
    }

    /// What Rs of kind 03 holds.
    fn rs(&self) -> Option<u32> {
        match *self.record {
            [0x03, _, _, _, _, rs] => Some(self.register(rs)),
            _ => None,
        }
    }

    /// The base of kind 10 is in its list, which is then not written back.
    fn base_in_list(&self) -> bool {
        matches!(*self.record, [0x10, _, _, rn, _, a, b]
            if u16::from_le_bytes([a, b]) >> rn & 1 == 1)
    }
}

type Sight = (&'static str, fn(&Look) -> bool);

/// Of steps whose condition passed.
pub const SIGHTS: [Sight; 23] = [
    ("ORR of a register with a bit of Rn", |look| {
        matches!(*look.record, [0x01, 6, _, _, rn, rm, 0, n]
            if look.register(rn) & look.register(rm) << n != 0)
    }),
    ("ORR of a constant with a bit of Rn", |look| {
        matches!(*look.record, [0x02, 6, _, _, rn, a, b, c, d]
            if look.register(rn) & u32::from_le_bytes([a, b, c, d]) != 0)
    }),
    ("ADD to R13", |look| matches!(look.record, [0x01 | 0x02, 0, _, 13, ..])),
    ("ADD to R15", |look| matches!(look.record, [0x01, 0, _, 15, ..])),
    ("MOV to R13", |look| matches!(look.record, [0x01, 10, _, 13, ..])),
    ("MOV to R15", |look| matches!(look.record, [0x01, 10, _, 15, ..])),
    ("MOV from R15", |look| matches!(look.record, [0x01, 10, _, _, _, 15, ..])),
    ("kind 04 from R15", |look| matches!(look.record, [0x04, _, _, _, 15, ..])),
    ("kind 04 to R13", |look| matches!(look.record, [0x04, _, _, 13, ..])),
    ("shift by 0", |look| look.rs() == Some(0)),
    ("shift by 31", |look| look.rs() == Some(31)),
    ("shift by 32", |look| look.rs() == Some(32)),
    ("shift by 33", |look| look.rs() == Some(33)),
    ("division by 0", |look| matches!(*look.record, [0x09, .., rm] if look.register(rm) == 0)),
    ("minimum by -1", |look| {
        matches!(*look.record, [0x09, 0, _, _, rn, rm]
            if look.register(rn) == 1 << 31 && look.register(rm) == u32::MAX)
    }),
    ("load from R15", |look| matches!(look.record, [0x0D, _, _, _, 15, ..])),
    ("load of two from R15", |look| matches!(look.record, [0x0F, _, _, _, _, 15, ..])),
    ("load to R15", |look| matches!(look.record, [0x0D | 0x0E, 0, _, 15, ..])),
    ("load to R13", |look| matches!(look.record, [0x0D | 0x0E, 0, _, 13, ..])),
    ("R13 written back", |look| {
        matches!(look.record, [0x0D, _, _, _, 13, 1 | 2, ..] | [0x10, _, _, 13, 1, ..])
    }),
    ("R15 in a list", |look| matches!(look.record, [0x10, .., list] if list & 0x80 != 0)),
    ("base in its list", |look| look.base_in_list()),
    ("BLX R14", |look| matches!(look.record, [0x12, 1, _, 14])),
];
