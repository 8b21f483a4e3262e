//! Records at random: mostly as paper 01's table and order 1 of paper 02 have them, and damage to them.

use crate::prng::Prng;

#[derive(Clone, Copy)]
enum Field {
    /// A byte below this.
    Below(u8),
    Form,
    Register,
    Rotation,
    /// Two bytes, below this.
    Number(u32),
    /// Two bytes, signed.
    Offset,
    /// Four bytes.
    Constant,
    /// Four bytes, signed.
    Reach,
    /// Two bytes, a bit for each register.
    List,
}
use Field::*;

/// The bodies of the table, from kind 01.
const BODIES: [&[Field]; 23] = [
    &[Below(16), Form, Register, Register, Register, Below(5), Below(33)],
    &[Below(16), Form, Register, Register, Constant],
    &[Below(4), Form, Register, Register, Register],
    &[Below(2), Form, Register, Register, Number(4096)],
    &[Below(2), Form, Register, Number(65_536)],
    &[Below(5), Form, Register, Register],
    &[Below(3), Form, Register, Register, Register, Register],
    &[Below(4), Form, Register, Register, Register, Register],
    &[Below(2), Form, Register, Register, Register],
    &[Below(2), Form, Register, Below(33), Register, Below(3), Below(33)],
    &[Below(4), Form, Register, Register, Below(32), Below(33)],
    &[Below(4), Form, Register, Register, Rotation],
    &[Below(8), Form, Register, Register, Below(3), Offset],
    &[Below(8), Form, Register, Register, Register, Below(4)],
    &[Below(2), Form, Register, Register, Register, Below(3), Offset],
    &[Below(4), Form, Register, Below(2), List],
    &[Below(2), Form, Below(15), Reach],
    &[Below(2), Form, Register],
    &[Below(2), Form, Below(8), Below(128)],
    &[Form, Below(15), Below(5), Below(8)],
    &[Form],
    &[Below(2), Form, Register, Register],
    &[Number(65_536)],
];

/// Accesses, and what may name R13 and R15, twice as often as the others. Kinds 16 and 17 are put by
/// questions of their own.
fn kind(prng: &mut Prng) -> u8 {
    let twice = [0x01, 0x0D, 0x0E, 0x0F, 0x10];
    match prng.below(26) {
        one @ 0..=20 => one as u8 + 1,
        other => twice[other as usize - 21],
    }
}

/// A record of any kind of paper 01.
pub fn record(prng: &mut Prng) -> Vec<u8> {
    let kind = kind(prng);
    record_of(prng, kind)
}

/// Of a kind, as it falls.
pub fn record_of(prng: &mut Prng, kind: u8) -> Vec<u8> {
    let mut record = vec![kind];
    // Rules on two fields speak of equal registers, which are rare among 16.
    let common = prng.below(16) as u8;
    for &field in BODIES[usize::from(kind) - 1] {
        match field {
            Below(bound) => record.push(prng.below(bound.into()) as u8),
            Form => record.push(prng.below(4) as u8),
            Register => record.push(register(prng, common)),
            Rotation => record.push(prng.pick(&[0, 8, 16, 24])),
            Number(bound) => record.extend((prng.below(bound) as u16).to_le_bytes()),
            Offset => record.extend(offset(prng).to_le_bytes()),
            Constant => record.extend(constant(prng).to_le_bytes()),
            Reach => record.extend((prng.word() as i32 >> (7 + prng.below(12)) & !1).to_le_bytes()),
            List => record.extend(list(prng).to_le_bytes()),
        }
    }
    record
}

/// A record that is done where so many conditions wait. It is the second program that says so, but
/// a mistake of its would not stay hidden: other records, which it is not asked about, are put too.
pub fn allowed(prng: &mut Prng, waiting: usize) -> Vec<u8> {
    loop {
        let kind = kind(prng);
        if let Some(record) = fitting(prng, kind, waiting) {
            return record;
        }
    }
}

/// As `allowed`, and of a kind. A kind with many rules is tried often; some never fit.
pub fn fitting(prng: &mut Prng, kind: u8, waiting: usize) -> Option<Vec<u8>> {
    for _ in 0..16 {
        let mut record = record_of(prng, kind);
        bind(&mut record);
        if second::judge::judge(&record, waiting) == 0 {
            return Some(record);
        }
    }
    None
}

/// As `fitting`, of a kind that fits often where nothing waits.
pub fn of_kind(prng: &mut Prng, kind: u8) -> Vec<u8> {
    loop {
        if let Some(record) = fitting(prng, kind, 0) {
            return record;
        }
    }
}

fn register(prng: &mut Prng, common: u8) -> u8 {
    match prng.below(8) {
        0 => 13,
        1 => 15,
        2 => common,
        3 => prng.below(17) as u8,
        _ => prng.below(13) as u8,
    }
}

fn offset(prng: &mut Prng) -> i16 {
    let size = prng.pick(&[256, 1024, 4096, 4100]);
    let offset = prng.below(size) as i16 & prng.pick(&[!0, !3]);
    prng.pick(&[offset, -offset])
}

fn constant(prng: &mut Prng) -> u32 {
    let byte = u32::from(prng.byte());
    match prng.below(8) {
        0 => byte * 0x0001_0001,
        1 => byte * 0x0100_0100,
        2 => byte * 0x0101_0101,
        3 => byte.rotate_left(prng.below(32)),
        _ => byte << prng.below(25),
    }
}

/// Short and long ones as often as others; most without 13, and without 14 or 15.
fn list(prng: &mut Prng) -> u16 {
    let (one, other) = (prng.word() as u16, prng.word() as u16);
    let list = match prng.below(6) {
        0 => 1 << prng.below(16),
        1 => 1 << prng.below(16) | 1 << prng.below(16),
        2 => one & other,
        3 => one | other,
        4 => !(1 << prng.below(16)),
        _ => one,
    };
    list & !prng.pick(&[0x6000, 0xA000, 0xA000, 0xA000, 0xE000, 0x2000, 0])
}

/// Makes the fields fit the rules on two of them, which random ones would break too often.
pub fn bind(record: &mut [u8]) {
    if let [0x01, _, _, _, _, _, 4, n] = record {
        *n = 0;
    }
    match record {
        [0x01 | 0x02, 10 | 11, _, _, rn, ..] => *rn = 0,
        [0x01 | 0x02, 12..=15, form, rd, ..] => (*form, *rd) = (*form | 1, 0),
        [0x01..=0x03, ..] => (),
        [0x07, 0, _, _, _, _, ra] => *ra = 0,
        [0x0B, 0, form, _, rn, ..] => (*form, *rn) = (*form & 2, 0),
        [0x11, 1, form, condition, ..] => (*form, *condition) = (2, 14),
        [0x12 | 0x13, _, form, ..] | [0x14, form, ..] => *form = 0,
        [0x16, _, form, ..] => *form = 2,
        [0x17, ..] => (),
        [0x15, form] | [_, _, form, ..] => *form &= 2,
        _ => (),
    }
}

/// Damage to any bytes, one record or many.
pub fn damage(prng: &mut Prng, bytes: &mut Vec<u8>) {
    if bytes.is_empty() {
        return bytes.push(prng.byte());
    }
    let at = prng.below(bytes.len() as u32) as usize;
    match prng.below(9) {
        0 => bytes[at] = prng.byte(),
        1 | 2 => bytes[at] ^= 1 << prng.below(8),
        3 => bytes[at] = bytes[at].wrapping_add(prng.pick(&[1, 255])),
        4 => bytes.truncate(at),
        5 => bytes.push(prng.byte() & 31),
        6 => bytes.insert(at, prng.byte() & 31),
        7 => {
            bytes.remove(at);
        }
        _ => {
            let other = prng.below(bytes.len() as u32) as usize;
            bytes.swap(at, other);
        }
    }
}
