//! Records that are done outside a block, to sweep around: every op, mode, shift and condition, with
//! and without S, both lengths, and each exception of "Restricted".

mod access;
mod compute;
mod control;
mod tables;

use crate::table::FILLER;
use std::collections::BTreeSet;

pub use tables::{fillers, tables};

pub type Stock = Vec<Vec<u8>>;

pub fn stock() -> Stock {
    let mut stock = Stock::new();
    compute::add(&mut stock);
    access::add(&mut stock);
    control::add(&mut stock);
    stock
}

/// The first record of every kind and op, with and without S, in each mode, with and without
/// write-back, and with R13 and R15 wherever the stock has them.
pub fn samples(stock: &[Vec<u8>]) -> Stock {
    let mut seen = BTreeSet::new();
    stock.iter().filter(|record| seen.insert(sort(record))).cloned().collect()
}

fn sort(record: &[u8]) -> (u8, u8, u8, u8, u8) {
    // IT, NOP and fillers have no op and no registers
    if matches!(record[0], 0x14 | 0x15 | FILLER) {
        return (record[0], 0, 0, 0, 0);
    }
    let registers = &record[3..record.len().min(6)];
    let special = registers.iter().fold(0, |special, register| match register {
        13 => special * 3 + 1,
        15 => special * 3 + 2,
        _ => special * 3,
    });
    let mode = match record[0] {
        0x0D => record[5],
        0x0F => record[6],
        0x10 => record[4],
        _ => 0,
    };
    (record[0], record[1], record[2] & 1, mode, special)
}

/// The length bit of a form, set at every other turn, so that both lengths come up beside whatever
/// else takes turns.
fn length(turn: usize) -> u8 {
    (turn % 2 * 2) as u8
}

/// A head of single bytes and a little-endian number.
fn with_half(head: &[u8], number: u16) -> Vec<u8> {
    [head, &number.to_le_bytes()].concat()
}

fn with_word(head: &[u8], number: u32) -> Vec<u8> {
    [head, &number.to_le_bytes()].concat()
}
