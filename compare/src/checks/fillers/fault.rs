//! Mistakes in listings with fillers, and what is nearly one.

use super::sorts::{self, filler, other, IT, LAST_OF_BLOCK};
use super::{branches, gap, open};
use crate::checks::fault;
use crate::checks::listing::{retarget, Records};
use crate::prng::Prng;
use crate::table::{FILLER, TABLE_BRANCH};

/// At most one.
pub fn make(prng: &mut Prng, records: &mut Records) {
    match prng.below(32) {
        0..=4 => behind_outside(prng, records),
        5..=11 => behind_block(prng, records),
        12 | 13 => in_block(prng, records),
        14 | 15 => ill_formed(prng, records),
        16..=23 => branches::put(prng, records),
        24 => table_branch(prng, records),
        25..=27 => table_branch_in_block(prng, records),
        28 => left_open(prng, records),
        29 => fault::make(prng, records),
        _ => (),
    }
}

/// Puts records in and lets all branches lead to landing places again.
fn put_in(prng: &mut Prng, records: &mut Records, some: Records) {
    let at = gap(prng, records);
    records.splice(at..at, some);
    retarget(prng, records);
}

/// A filler behind a record of any sort, outside a block but for IT.
fn behind_outside(prng: &mut Prng, records: &mut Records) {
    let sort = prng.below(sorts::NAMES.len() as u32) as usize;
    // all that another filler needs is one before it that may stand there
    let mut some = match sort {
        sorts::SORT_OF_FILLER => vec![sorts::record(prng, 0, 0), filler(prng)],
        _ => vec![sorts::record(prng, sort, 0)],
    };
    some.push(filler(prng));
    put_in(prng, records, some);
}

/// A filler behind a record of any sort that is the last of a block: "outside a block" (S14).
fn behind_block(prng: &mut Prng, records: &mut Records) {
    let sort = prng.pick(&LAST_OF_BLOCK);
    let (mut block, count) = (Records::new(), 1 + prng.below(4) as u8);
    open(prng, &mut block, count);
    block.push(sorts::record(prng, sort, 1));
    block.push(filler(prng));
    put_in(prng, records, block);
}

/// "A filler .. can't be in a block", at whatever place in it; then the block is whole or left open.
fn in_block(prng: &mut Prng, records: &mut Records) {
    let (mut block, count) = (Records::new(), 1 + prng.below(4) as u8);
    open(prng, &mut block, count);
    block.push(other(prng, 1));
    let at = 1 + prng.below(count.into()) as usize;
    block[at] = filler(prng);
    if prng.once_in(4) {
        block.truncate(at + 1);
    }
    put_in(prng, records, block);
}

/// "a block not finished at the end".
fn left_open(prng: &mut Prng, records: &mut Records) {
    let count = 1 + prng.below(4) as u8;
    open(prng, records, count);
}

/// Where a filler may stand, or behind any record.
fn ill_formed(prng: &mut Prng, records: &mut Records) {
    let odd = prng.word() as u16 | 1;
    let number = prng.pick(&[0, 0, 0xFFFF, 1, odd]);
    let sort = if prng.once_in(2) { 1 } else { prng.below(IT as u32) as usize };
    let record = sorts::record(prng, sort, 0);
    put_in(prng, records, vec![record, [&[FILLER][..], &number.to_le_bytes()].concat()]);
}

/// Outside a block: with a restricted register, another form, another op.
fn table_branch(prng: &mut Prng, records: &mut Records) {
    let record = bad_table_branch(prng);
    put_in(prng, records, vec![record]);
}

/// In a block: not as its last, or with a restricted register, or both.
fn table_branch_in_block(prng: &mut Prng, records: &mut Records) {
    let (mut block, count) = (Records::new(), 1 + prng.below(4) as u8);
    open(prng, &mut block, count);
    block.push(other(prng, 1));
    let at = 1 + prng.below(count.into()) as usize;
    let sort = prng.pick(&[2, 3]);
    block[at] = match prng.below(2) {
        0 => bad_table_branch(prng),
        _ => sorts::record(prng, sort, 1),
    };
    put_in(prng, records, block);
}

fn bad_table_branch(prng: &mut Prng) -> Vec<u8> {
    let (rn, rm) = prng.pick(&[(13, 0), (0, 13), (1, 15), (15, 13), (13, 15)]);
    let mut record = vec![TABLE_BRANCH, prng.below(2) as u8, 2, rn, rm];
    match prng.below(8) {
        0 => record[1] = 2,
        1 => record[2] = prng.pick(&[0, 1, 3, 6]),
        _ => (),
    }
    record
}
