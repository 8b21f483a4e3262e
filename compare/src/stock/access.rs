//! Kinds 0D to 10.

use super::{length, with_half, Stock};

const LDR: u8 = 0;
const LAST_LOAD: u8 = 4;
const STR: u8 = 5;
const MODES: [u8; 3] = [0, 1, 2];
/// "Rt 13 or 15 only in LDR, Rt 13 in STR."
const SPECIAL: [(u8, u8); 3] = [(LDR, 13), (LDR, 15), (STR, 13)];

pub fn add(stock: &mut Stock) {
    singles(stock);
    special_singles(stock);
    indexed(stock);
    doubles(stock);
    multiples(stock);
}

fn single(op: u8, form: u8, registers: [u8; 2], mode: u8, offset: i16) -> Vec<u8> {
    with_half(&[0x0D, op, form, registers[0], registers[1], mode], offset as u16)
}

/// "Offsets of 0D: -255 to 4095 in mode 0 (-4095 to 4095 with Rn 15), else -255 to 255".
fn singles(stock: &mut Stock) {
    for (op, mode) in (0..8).flat_map(|op| MODES.map(|mode| (op, mode))) {
        let highest = if mode == 0 { 4095 } else { 255 };
        for (turn, offset) in [-255, highest].into_iter().enumerate() {
            stock.push(single(op, length(turn), [1, 2], mode, offset));
        }
    }
}

fn special_singles(stock: &mut Stock) {
    for (op, rt) in SPECIAL {
        for mode in MODES {
            stock.push(single(op, length(mode.into()), [rt, 2], mode, 4));
        }
    }
    // "Rn 15 only in loads 0D and 0F, mode 0."
    for op in 0..=LAST_LOAD {
        for (turn, offset) in [-4095, 4095].into_iter().enumerate() {
            stock.push(single(op, length(turn), [1, 15], 0, offset));
        }
    }
    stock.push(single(LDR, 2, [15, 15], 0, 8));
    // Rn = Rt is free in mode 0, Rn 13 in all
    for op in [LDR, STR] {
        stock.push(single(op, 0, [3, 3], 0, 4));
        stock.push(single(op, 0, [3, 13], 1, -4));
        stock.push(single(op, 2, [3, 13], 2, 4));
    }
}

fn indexed(stock: &mut Stock) {
    for (op, n) in (0..8).flat_map(|op| [0, 1, 2, 3].map(|n| (op, n))) {
        stock.push(vec![0x0E, op, length(n), 1, 2, 3, n as u8]);
    }
    for (op, rt) in SPECIAL {
        stock.push(vec![0x0E, op, 2, rt, 2, 3, 0]);
        stock.push(vec![0x0E, op, 0, rt, 13, rt & 1, 3]);
    }
}

/// "In 0F Rt, Rt2 are not 13 or 15, and LDRD wants them different."
fn doubles(stock: &mut Stock) {
    let double = |op, form, [rt, rt2, rn]: [u8; 3], mode, offset: i16| {
        with_half(&[0x0F, op, form, rt, rt2, rn, mode], offset as u16)
    };
    for (op, mode) in [0, 1].into_iter().flat_map(|op| MODES.map(|mode| (op, mode))) {
        for (turn, offset) in [-1020, 1020].into_iter().enumerate() {
            stock.push(double(op, length(turn), [1, 2, 3], mode, offset));
        }
        stock.push(double(op, 2, [1, 2, 13], mode, 8));
    }
    stock.push(double(0, 2, [1, 2, 15], 0, -8));
    stock.push(double(0, 2, [1, 2, 1], 0, 8));
    for mode in MODES {
        stock.push(double(1, 2, [4, 4, 3], mode, 8));
    }
}

/// "list not empty, without 13; stores without 15; loads without 14 and 15 together; no Rn in the
/// list with write-back; Rn not 15."
fn multiples(stock: &mut Stock) {
    let multiple =
        |op, form, rn, write_back, list| with_half(&[0x10, op, form, rn, write_back], list);
    for (op, write_back) in (0..4).flat_map(|op| [(op, 0), (op, 1)]) {
        for (turn, list) in [0x0002, 0x5FFE].into_iter().enumerate() {
            stock.push(multiple(op, length(turn), 0, write_back, list));
        }
        stock.push(multiple(op, 2, 13, write_back, 0x40F0));
        stock.push(multiple(op, 2, 14, write_back, 0x1000));
        if op < 2 {
            stock.push(multiple(op, 0, 0, write_back, 0x8000));
            stock.push(multiple(op, 2, 0, write_back, 0x9FFE));
        }
    }
    for op in 0..4 {
        stock.push(multiple(op, 0, 3, 0, 0x0008));
    }
}
