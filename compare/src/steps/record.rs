//! The records that are stepped.

use crate::prng::Prng;
use crate::random_record;
use crate::stock::Stock;
use crate::table::form_place;

const ADD: u8 = 0;
const SUB: u8 = 2;
const MOV: u8 = 10;
const LDR: u8 = 0;
const STR: u8 = 5;

/// Mostly one that is done outside a block: all kinds alike, or each exception of "Restricted" and
/// each limit. Some are left as they fell, and some are damaged.
pub fn record(prng: &mut Prng, stock: &Stock) -> Vec<u8> {
    let mut record = match prng.below(16) {
        0 => {
            let mut record = random_record::record(prng);
            random_record::bind(&mut record);
            record
        }
        1..=3 => stock[prng.below(stock.len() as u32) as usize].clone(),
        _ => random_record::allowed(prng, 0),
    };
    if prng.once_in(8) {
        special(prng, &mut record);
    }
    if prng.once_in(32) {
        nearly(prng, &mut record);
    }
    if prng.once_in(24) {
        random_record::damage(prng, &mut record);
    }
    record
}

/// What an exception of "Restricted" nearly allows; else S turned, which few kinds allow.
fn nearly(prng: &mut Prng, record: &mut [u8]) {
    match record {
        [0x01, _, _, _, rn, rm, ..] if !prng.once_in(4) => {
            (*rn, *rm) = (13, prng.pick(&[*rm, *rm, 13, 15]));
        }
        [0x02, _, _, _, rn, ..] if !prng.once_in(4) => *rn = 13,
        [0x08, _, _, low, high, ..] if !prng.once_in(4) => *high = *low,
        _ => {
            if let Some(place) = form_place(record) {
                record[place] ^= 1;
            }
        }
    }
}

/// R13 and R15 where they are allowed, for they seldom fall there.
fn special(prng: &mut Prng, record: &mut [u8]) {
    match record {
        [0x01, op, form, rd, rn, _, shift, n] => {
            (*op, *rd, *rn) =
                prng.pick(&[(ADD, 15, 15), (MOV, 15, 0), (MOV, 13, 0), (ADD, 13, 13)]);
            (*form, *shift, *n) = (*form & 2, 0, 0);
        }
        [0x02, op, _, rd, rn, ..] => (*op, *rd, *rn) = (prng.pick(&[ADD, SUB]), 13, 13),
        [0x04, _, _, rd, rn, ..] => (*rd, *rn) = prng.pick(&[(13, 13), (1, 13), (1, 15)]),
        [0x0D | 0x0E, op, _, rt, ..] => {
            (*op, *rt) = prng.pick(&[(LDR, 15), (LDR, 15), (LDR, 13), (STR, 13)]);
        }
        [0x10, op, _, _, _, _, list] => (*op, *list) = (*op & 1, *list & 0x1F | 0x80),
        _ => (),
    }
}
