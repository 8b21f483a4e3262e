//! What must have been among the bytes that are put as a record, with the number that 01 and order 1
//! of 02 give them.

use crate::counts::Counts;
use crate::cover::Cover;
use crate::table::{self, FILLER, KINDS, LENGTHS, OPS, REGISTERS};
use second::judge::judge;
use std::collections::BTreeSet;
use std::fmt;

const DONE: u32 = 0;
const MALFORMED: u32 = 2;
const RESTRICTED: u32 = 3;
/// Bytes more than a record has.
const MORE: usize = 2;
const LONGEST: usize = 9;
const SBC: u8 = 3;
const TEQ: u8 = 15;

/// A name, the number, and whether bytes are such, none of which is refused for anything else.
type Refusal = (&'static str, u32, fn(&[u8]) -> bool);

const REFUSALS: [Refusal; 29] = [
    ("no bytes", MALFORMED, |bytes| bytes.is_empty()),
    ("CBZ with S", MALFORMED, |bytes| compare_branch_with_s(bytes, 0)),
    ("CBNZ with S", MALFORMED, |bytes| compare_branch_with_s(bytes, 1)),
    ("UMULL with RdLo = RdHi", RESTRICTED, |bytes| one_half(bytes, 0)),
    ("UMLAL with RdLo = RdHi", RESTRICTED, |bytes| one_half(bytes, 1)),
    ("SMULL with RdLo = RdHi", RESTRICTED, |bytes| one_half(bytes, 2)),
    ("SMLAL with RdLo = RdHi", RESTRICTED, |bytes| one_half(bytes, 3)),
    ("SBC of R13 and a register", RESTRICTED, |bytes| from_13(bytes, SBC)),
    ("SBC of R13 and a constant", RESTRICTED, |bytes| from_13_and_constant(bytes, SBC)),
    ("TEQ of R13 and a register", RESTRICTED, |bytes| from_13(bytes, TEQ)),
    ("TEQ of R13 and a constant", RESTRICTED, |bytes| from_13_and_constant(bytes, TEQ)),
    ("ADD of R13 and R15", RESTRICTED, |bytes| from_13_and_15(bytes, 0)),
    ("SUB of R13 and R15", RESTRICTED, |bytes| from_13_and_15(bytes, 2)),
    ("CMP of R13 and R15", RESTRICTED, |bytes| from_13_and_15(bytes, 12)),
    ("CMN of R13 and R15", RESTRICTED, |bytes| from_13_and_15(bytes, 13)),
    ("ADD to R13 of R13 and R15", RESTRICTED, |bytes| {
        matches!(bytes, [0x01, 0, _, 13, 13, 15, 0, 0..=3])
    }),
    ("kind 16 with an op above 1", MALFORMED, |bytes| {
        matches!(bytes, [0x16, 2..=255, 2, 0..=12, 0..=12])
    }),
    ("TBB with another form", MALFORMED, |bytes| table_branch_with_form(bytes, 0)),
    ("TBH with another form", MALFORMED, |bytes| table_branch_with_form(bytes, 1)),
    ("TBB with Rn 13", RESTRICTED, |bytes| matches!(bytes, [0x16, 0, 2, 13, 0..=12])),
    ("TBH with Rn 13", RESTRICTED, |bytes| matches!(bytes, [0x16, 1, 2, 13, 0..=12])),
    ("TBB with Rm 13", RESTRICTED, |bytes| matches!(bytes, [0x16, 0, 2, 0..=12, 13])),
    ("TBH with Rm 13", RESTRICTED, |bytes| matches!(bytes, [0x16, 1, 2, 0..=12, 13])),
    ("TBB with Rm 15", RESTRICTED, |bytes| matches!(bytes, [0x16, 0, 2, 0..=12 | 15, 15])),
    ("TBH with Rm 15", RESTRICTED, |bytes| matches!(bytes, [0x16, 1, 2, 0..=12 | 15, 15])),
    ("filler of 0", MALFORMED, |bytes| bytes == [FILLER, 0, 0]),
    ("odd filler", MALFORMED, |bytes| matches!(bytes, [FILLER, low, _] if low % 2 == 1)),
    ("filler of 65,535", MALFORMED, |bytes| bytes == [FILLER, 0xFF, 0xFF]),
    ("filler alone", RESTRICTED, |bytes| matches!(bytes, [FILLER, _, _])),
];

fn usual(registers: &[u8]) -> bool {
    registers.iter().all(|&register| register != 13 && register != 15)
}

fn compare_branch_with_s(bytes: &[u8], op: u8) -> bool {
    matches!(*bytes, [0x13, its, 1, 0..=7, offset @ 0..=126] if its == op && offset % 2 == 0)
}

fn table_branch_with_form(bytes: &[u8], op: u8) -> bool {
    matches!(*bytes, [0x16, its, form, 0..=12, 0..=12] if its == op && form != 2)
}

fn one_half(bytes: &[u8], op: u8) -> bool {
    matches!(*bytes, [0x08, its, _, low, high, rn, rm]
        if its == op && low == high && usual(&[low, rn, rm]))
}

fn from_13(bytes: &[u8], op: u8) -> bool {
    matches!(*bytes, [0x01, its, _, rd, 13, rm, ..] if its == op && usual(&[rd, rm]))
}

fn from_13_and_constant(bytes: &[u8], op: u8) -> bool {
    matches!(*bytes, [0x02, its, _, rd, 13, ..] if its == op && usual(&[rd]))
}

fn from_13_and_15(bytes: &[u8], op: u8) -> bool {
    matches!(*bytes, [0x01, its, _, rd, 13, 15, ..] if its == op && usual(&[rd]))
}

pub struct Shapes {
    /// What the records of the stock begin with.
    fronts: BTreeSet<Vec<u8>>,
    lengths: Cover,
    forms: Cover,
    registers: Cover,
    refused: Counts<{ REFUSALS.len() }>,
}

impl Shapes {
    pub fn new(stock: &[Vec<u8>]) -> Shapes {
        let fronts = |record: &Vec<u8>| -> Vec<Vec<u8>> {
            (1..record.len()).map(|length| record[..length].to_vec()).collect()
        };
        let other = |row: usize, length: usize| {
            (1..=LENGTHS[row] + MORE).contains(&length) && length != LENGTHS[row]
        };
        let fields = REGISTERS.concat().len();
        Shapes {
            fronts: stock.iter().flat_map(fronts).collect(),
            lengths: Cover::new(
                "kinds at every shorter length, one byte and two too long",
                [KINDS, LONGEST + MORE + 1],
                other,
            ),
            forms: Cover::new("ops with S and without", [KINDS, 32], |row, column| {
                column < 2 * usize::from(OPS[row])
            }),
            registers: Cover::new(
                "registers above 15 in their fields",
                [fields, 256],
                |_, byte| byte > 15,
            ),
            refused: Counts::new("refused", REFUSALS.map(|(name, ..)| name)),
        }
    }

    /// With the number that both sides gave.
    pub fn see(&mut self, bytes: &[u8], number: u32) {
        for (sort, (_, its, is)) in REFUSALS.iter().enumerate() {
            if number == *its && is(bytes) {
                self.refused.add(sort);
            }
        }
        let row = match table::kind_of(bytes) {
            0 => return,
            kind => kind - 1,
        };
        if bytes.len() == LENGTHS[row] {
            self.form(row, bytes, number);
            self.register(row, bytes, number);
        } else if number == MALFORMED {
            self.length(row, bytes);
        }
    }

    /// Bytes that would be a record if they were as long as one.
    fn length(&mut self, row: usize, bytes: &[u8]) {
        let length = bytes.len();
        if length > LENGTHS[row] + MORE || !self.lengths.lacks(row, length) {
            return;
        }
        let only = match bytes.get(..LENGTHS[row]) {
            Some(record) => judge(record, 0) == best(record),
            None => self.fronts.contains(bytes),
        };
        if only {
            self.lengths.see(row, length);
        }
    }

    /// A record that is done with this S, or only not because of it.
    fn form(&mut self, row: usize, bytes: &[u8], number: u32) {
        let (op, form) = (table::op_of(bytes), table::form_of(bytes));
        let column = 2 * op + usize::from(form & 1);
        if op >= usize::from(OPS[row]) || form > 3 || !self.forms.lacks(row, column) {
            return;
        }
        let possible = table::possible_forms(row + 1, op) >> form & 1 == 1;
        let done = |place: usize| judge(&with(bytes, place, form ^ 1), 0) == DONE;
        let only = || table::form_place(bytes).map_or(false, done);
        if possible && number == DONE || !possible && number == MALFORMED && only() {
            self.forms.see(row, column);
        }
    }

    /// A record that would be done with another register.
    fn register(&mut self, row: usize, bytes: &[u8], number: u32) {
        let mut above = REGISTERS[row].iter().enumerate().filter(|(_, &at)| bytes[at] > 15);
        let (field, at) = match (above.next(), above.next()) {
            (Some((field, &at)), None) if number == MALFORMED => (field, at),
            _ => return,
        };
        let before: usize = REGISTERS[..row].iter().map(|fields| fields.len()).sum();
        let (field, value) = (before + field, usize::from(bytes[at]));
        let only = || (0..13).any(|register| judge(&with(bytes, at, register), 0) == DONE);
        if self.registers.lacks(field, value) && only() {
            self.registers.see(field, value);
        }
    }

    pub fn gaps(&self) -> Vec<String> {
        let covers = [&self.lengths, &self.forms, &self.registers];
        let never = covers.into_iter().filter_map(Cover::gap);
        never.chain(self.refused.gaps(1)).collect()
    }
}

/// The lowest number that a record of its kind has, stepped alone.
fn best(record: &[u8]) -> u32 {
    match record[0] {
        FILLER => RESTRICTED,
        _ => DONE,
    }
}

/// The record with one byte replaced.
fn with(record: &[u8], at: usize, byte: u8) -> Vec<u8> {
    let mut record = record.to_vec();
    record[at] = byte;
    record
}

impl fmt::Display for Shapes {
    fn fmt(&self, f: &mut fmt::Formatter<'_>) -> fmt::Result {
        writeln!(f, "{}\n{}\n{}", self.lengths, self.forms, self.registers)?;
        writeln!(f, "{}", self.refused)
    }
}
