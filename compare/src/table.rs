//! What paper 01 and order 1 of paper 02 let occur: the kinds, their ops, and the numbers that a record
//! of a kind can get.

pub const KINDS: usize = 23;
/// Order 1: TBB and TBH.
pub const TABLE_BRANCH: u8 = 0x16;
/// Order 1: "a filler of 2 to 65,534 machine bytes, even (body: that number, 2 bytes)".
pub const FILLER: u8 = 0x17;
/// "Names in a row are ops 0, 1, 2 and on": how many a kind has, from kind 01. Kinds 14 and 15 have
/// no op byte and count as one op; a filler has none, and no step with it is done.
pub const OPS: [u8; KINDS] =
    [16, 16, 4, 2, 2, 5, 3, 4, 2, 2, 4, 4, 8, 8, 2, 4, 2, 2, 2, 1, 1, 2, 0];
/// "One byte of kind (hex), then a body whose length the kind fixes", together, from kind 01.
pub const LENGTHS: [usize; KINDS] =
    [8, 9, 6, 7, 6, 5, 7, 7, 6, 8, 7, 6, 8, 7, 9, 7, 8, 4, 5, 5, 2, 5, 3];
/// The bytes of a record that are registers, from kind 01.
pub const REGISTERS: [&[usize]; KINDS] = [
    &[3, 4, 5],
    &[3, 4],
    &[3, 4, 5],
    &[3, 4],
    &[3],
    &[3, 4],
    &[3, 4, 5, 6],
    &[3, 4, 5, 6],
    &[3, 4, 5],
    &[3, 5],
    &[3, 4],
    &[3, 4],
    &[3, 4],
    &[3, 4, 5],
    &[3, 4, 5],
    &[3],
    &[],
    &[3],
    &[3],
    &[],
    &[],
    &[3, 4],
    &[],
];
/// B and BL, CBZ and CBNZ, and NOP stand nowhere under "Restricted"; CBZ has no R13 or R15 to name.
const NEVER_RESTRICTED: [usize; 3] = [0x11, 0x13, 0x15];
/// ADD and MOV to R15, MULS, LDR to R15 by two kinds, loads of 15, branches, IT. R15 as Rd of 02 and
/// 04, and as Rt of 0F, is restricted, and 3 is lower than 4; so it is for a lone filler (S17).
const HAS_SPOTS: [usize; 10] = [0x01, 0x07, 0x0D, 0x0E, 0x10, 0x11, 0x12, 0x13, 0x14, 0x16];
/// Kind 16 reads its table.
const ACCESSES: [usize; 5] = [0x0D, 0x0E, 0x0F, 0x10, 0x16];
/// LDR to R15 by two kinds, pairs, multiples: the first two read and write all else unaligned, as kind
/// 16 reads its halfword.
const HAS_ALIGNED: [usize; 4] = [0x0D, 0x0E, 0x0F, 0x10];
/// Those that can put any value in R13, or load or move one to R15 that must be odd. A base that 0F
/// or 10 writes back to R13 moves by a multiple of 4.
const HAS_BAD_VALUES: [usize; 7] = [0x01, 0x02, 0x04, 0x0D, 0x0E, 0x10, 0x12];

/// The kind of bytes that begin with one, else 0.
pub fn kind_of(bytes: &[u8]) -> usize {
    match bytes.first() {
        Some(&kind) if usize::from(kind) <= KINDS => usize::from(kind),
        _ => 0,
    }
}

/// The op of a record.
pub fn op_of(record: &[u8]) -> usize {
    match record[0] {
        0x14 | 0x15 | FILLER => 0,
        _ => usize::from(record[1]),
    }
}

/// Where in a record its form byte is; a filler has none.
pub fn form_place(record: &[u8]) -> Option<usize> {
    match record[0] {
        0x14 | 0x15 => Some(1),
        FILLER => None,
        _ => Some(2),
    }
}

/// The form byte of a record: bit 0 is S, bit 1 is set for 4 machine bytes. 0 for a filler.
pub fn form_of(record: &[u8]) -> u8 {
    form_place(record).map_or(0, |place| record[place])
}

/// The forms that a kind and op can have, as a bit each. "S may be 1 only in 01, 02, 03 and MUL";
/// "for the last four .. S is 1"; "Kinds 12, 13, 14 are 2 machine bytes, BL is 4", and so is kind 16
/// (S3). Bit 0 is form 0: no S, 2 machine bytes.
pub fn possible_forms(kind: usize, op: usize) -> u8 {
    if kind == 0 || op >= usize::from(OPS[kind - 1]) {
        return 0;
    }
    match (kind, op) {
        (0x01 | 0x02, 12..=15) => 0b1010,
        (0x01..=0x03, _) | (0x07, 0) => 0b1111,
        (0x11, 1) | (0x16, _) => 0b0100,
        (0x12..=0x14, _) => 0b0001,
        _ => 0b0101,
    }
}

/// Whether a step with bytes of this kind, 0 for none, can end with the number.
pub fn possible(kind: usize, number: usize) -> bool {
    match number {
        0 => kind > 0 && kind != usize::from(FILLER),
        1 | 2 => true,
        3 => kind > 0 && !NEVER_RESTRICTED.contains(&kind),
        4 => HAS_SPOTS.contains(&kind),
        5 => HAS_ALIGNED.contains(&kind),
        6 => ACCESSES.contains(&kind),
        7 => HAS_BAD_VALUES.contains(&kind),
        _ => false,
    }
}
