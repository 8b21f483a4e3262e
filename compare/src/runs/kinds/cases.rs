//! What is to come up in runs about one record, by paper 01.

mod refused;
mod standing;

use super::reach::Reach;
use super::Situation;
use crate::table::{self, OPS};
use std::fmt;

/// Kinds 01 to 16; 17, a filler, is never stepped.
const STEPPED: u8 = 0x16;
const DATA: [&str; 16] = [
    "ADD", "ADC", "SUB", "SBC", "RSB", "AND", "ORR", "EOR", "BIC", "ORN", "MOV", "MVN", "CMP",
    "CMN", "TST", "TEQ",
];
const SINGLE: [&str; 8] = ["LDR", "LDRB", "LDRH", "LDRSB", "LDRSH", "STR", "STRB", "STRH"];
const NAMES: [&[&str]; STEPPED as usize] = [
    &DATA,
    &DATA,
    &["LSL", "LSR", "ASR", "ROR"],
    &["ADDW", "SUBW"],
    &["MOVW", "MOVT"],
    &["CLZ", "REV", "REV16", "REVSH", "RBIT"],
    &["MUL", "MLA", "MLS"],
    &["UMULL", "UMLAL", "SMULL", "SMLAL"],
    &["SDIV", "UDIV"],
    &["SSAT", "USAT"],
    &["BFC", "BFI", "SBFX", "UBFX"],
    &["SXTB", "SXTH", "UXTB", "UXTH"],
    &SINGLE,
    &SINGLE,
    &["LDRD", "STRD"],
    &["LDMIA", "LDMDB", "STMIA", "STMDB"],
    &["B", "BL"],
    &["BX", "BLX"],
    &["CBZ", "CBNZ"],
    &["IT"],
    &["NOP"],
    &["TBB", "TBH"],
];

#[derive(Clone, Copy, PartialEq, Eq)]
pub enum Sort {
    /// In each of its forms.
    Done,
    /// With R13 or R15 at a place.
    Standing,
    Refused,
}

/// What a record holds at a place, in the bits of the mask.
#[derive(Clone, Copy)]
struct Part {
    words: &'static str,
    place: usize,
    mask: u8,
    value: u8,
}

const fn byte(words: &'static str, place: usize, value: u8) -> Part {
    Part { words, place, mask: 0xFF, value }
}

pub struct Case {
    pub sort: Sort,
    /// With which the step is to end where its condition passes.
    pub number: u32,
    pub kind: u8,
    op: u8,
    parts: Vec<Part>,
    /// How much of its access is to be in memory.
    pub reach: Option<Reach>,
}

pub fn all() -> Vec<Case> {
    let mut cases = Vec::new();
    forms(&mut cases);
    standing::add(&mut cases);
    refused::add(&mut cases);
    cases
}

/// Every kind and op in each form: with and without S, of 2 and of 4 machine bytes.
fn forms(cases: &mut Vec<Case>) {
    const WORDS: [&str; 4] = ["form 0", "form 1", "form 2", "form 3"];
    for (kind, op) in (1..=STEPPED).flat_map(|kind| ops(kind).map(move |op| (kind, op))) {
        let possible = table::possible_forms(kind.into(), op.into());
        let place = if matches!(kind, 0x14 | 0x15) { 1 } else { 2 };
        for form in (0..4).filter(|form| possible >> form & 1 == 1) {
            let part = byte(WORDS[usize::from(form)], place, form);
            cases.push(Case::new(Sort::Done, 0, (kind, op), &[part]));
        }
    }
}

fn ops(kind: u8) -> std::ops::Range<u8> {
    0..OPS[usize::from(kind) - 1]
}

impl Case {
    fn new(sort: Sort, number: u32, (kind, op): (u8, u8), parts: &[Part]) -> Case {
        Case { sort, number, kind, op, parts: parts.to_vec(), reach: None }
    }

    /// "IT, CBZ, CBNZ, MULS .. only with no conditions waiting."
    pub fn occurs(&self, situation: Situation) -> bool {
        let muls = (self.kind, self.op) == (0x07, 0) && self.parts[0].value & 1 == 1;
        situation == Situation::Outside || !muls && !matches!(self.kind, 0x13 | 0x14)
    }

    /// Gives a record of the kind what it is to have.
    pub fn make(&self, record: &mut [u8]) {
        if !matches!(self.kind, 0x14 | 0x15) {
            record[1] = self.op;
        }
        for part in &self.parts {
            record[part.place] = record[part.place] & !part.mask | part.value;
        }
    }

    pub fn holds(&self, record: &[u8]) -> bool {
        record[0] == self.kind
            && table::op_of(record) == usize::from(self.op)
            && self.parts.iter().all(|part| record[part.place] & part.mask == part.value)
    }
}

impl fmt::Display for Case {
    fn fmt(&self, f: &mut fmt::Formatter<'_>) -> fmt::Result {
        let name = NAMES[usize::from(self.kind) - 1][usize::from(self.op)];
        write!(f, "{} of kind {:02X}, {name}", self.number, self.kind)?;
        let parts = self.parts.iter().map(|part| part.words);
        parts.chain(self.reach.map(Reach::words)).try_for_each(|words| write!(f, ", {words}"))
    }
}
