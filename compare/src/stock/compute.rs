//! Kinds 01 to 0C.

use super::{length, with_half, with_word, Stock};

const ADD: u8 = 0;
const SUB: u8 = 2;
const MOV: u8 = 10;
const CMP: u8 = 12;
const CMN: u8 = 13;

const SHIFTS: [(u8, u8); 5] = [(0, 0), (1, 32), (2, 1), (3, 31), (4, 0)];
const CONSTANTS: [u32; 5] = [0x3F_C000, 0x00AB_00AB, 0xAB00_AB00, 0xABAB_ABAB, 0xFF];
const FORMS: [u8; 4] = [0, 1, 2, 3];
const LENGTHS: [u8; 2] = [0, 2];

pub fn add(stock: &mut Stock) {
    operate(stock);
    stack_pointer(stock);
    moves_and_jumps(stock);
    shifts_by(stock);
    numbers(stock);
    products(stock);
    saturations(stock);
    fields(stock);
    unary(stock);
}

/// "Rn is 0 for MOV, MVN; for the last four Rd is 0 and S is 1": Rd, Rn and the S bits.
fn operands(op: u8) -> (u8, u8, &'static [u8]) {
    match op {
        10 | 11 => (1, 0, &[0, 1]),
        12.. => (0, 2, &[1]),
        _ => (1, 2, &[0, 1]),
    }
}

fn operate(stock: &mut Stock) {
    for op in 0..16 {
        let (rd, rn, esses) = operands(op);
        for s in esses {
            for (turn, (shift, n)) in SHIFTS.into_iter().enumerate() {
                stock.push(vec![0x01, op, s | length(turn), rd, rn, 3, shift, n]);
            }
            for (turn, constant) in CONSTANTS.into_iter().enumerate() {
                stock.push(with_word(&[0x02, op, s | length(turn), rd, rn], constant));
            }
        }
    }
}

/// "ADD, SUB with Rn 13; with Rd 13 if Rn is 13 and any shift is LSL 0 to 3; CMP, CMN with Rn 13".
fn stack_pointer(stock: &mut Stock) {
    for (op, form) in [ADD, SUB].into_iter().flat_map(|op| FORMS.map(|form| (op, form))) {
        for (shift, n) in SHIFTS {
            stock.push(vec![0x01, op, form, 1, 13, 3, shift, n]);
        }
        for n in 0..4 {
            stock.push(vec![0x01, op, form, 13, 13, 3, 0, n]);
        }
        for rd in [1, 13] {
            stock.push(with_word(&[0x02, op, form, rd, 13], 0x3FC));
        }
    }
    for (op, form) in [CMP, CMN].into_iter().flat_map(|op| [(op, 1), (op, 3)]) {
        for (shift, n) in SHIFTS {
            stock.push(vec![0x01, op, form, 0, 13, 3, shift, n]);
        }
        stock.push(with_word(&[0x02, op, form, 0, 13], 0x3FC));
    }
}

/// "MOV register without shift or S, any Rd and Rm; ADD R15, R15, Rm without shift or S".
fn moves_and_jumps(stock: &mut Stock) {
    let special = [1, 13, 14, 15];
    for (rd, rm) in special.into_iter().flat_map(|rd| special.map(|rm| (rd, rm))) {
        stock.push(vec![0x01, MOV, length(usize::from(rd + rm)), rd, 0, rm, 0, 0]);
    }
    for form in LENGTHS {
        for rm in [0, 14] {
            stock.push(vec![0x01, ADD, form, 15, 15, rm, 0, 0]);
        }
    }
}

fn shifts_by(stock: &mut Stock) {
    for (shift, form) in (0..4).flat_map(|shift| FORMS.map(|form| (shift, form))) {
        stock.push(vec![0x03, shift, form, 1, 2, 3]);
    }
}

/// "kind 04 with Rn 13 (then Rd may be 13) or with Rn 15".
fn numbers(stock: &mut Stock) {
    for (op, form) in [0, 1].into_iter().flat_map(|op| LENGTHS.map(|form| (op, form))) {
        for (rd, rn) in [(1, 2), (1, 13), (13, 13), (1, 15)] {
            for number in [0, 4095] {
                stock.push(with_half(&[0x04, op, form, rd, rn], number));
            }
        }
        for number in [0, 0xFFFF] {
            stock.push(with_half(&[0x05, op, form, 1], number));
        }
    }
}

/// "MULS wants R0 to R7 and Rd = Rm."
fn products(stock: &mut Stock) {
    for form in LENGTHS {
        stock.push(vec![0x07, 0, form, 8, 9, 10, 0]);
        for (rd, rn) in [(0, 7), (7, 0), (3, 3)] {
            stock.push(vec![0x07, 0, form | 1, rd, rn, rd, 0]);
        }
        for op in [1, 2] {
            stock.push(vec![0x07, op, form, 1, 2, 3, 4]);
        }
        for op in 0..4 {
            stock.push(vec![0x08, op, form, 1, 2, 3, 4]);
        }
        for op in 0..2 {
            stock.push(vec![0x09, op, form, 1, 2, 3]);
        }
    }
}

/// "kind 0A has only LSL 0 to 31 and ASR 1 to 31"; "SSAT n is 1 to 32, USAT 0 to 31".
fn saturations(stock: &mut Stock) {
    for (op, bits) in [(0, 1), (0, 32), (1, 0), (1, 31)] {
        for (turn, (shift, s)) in [(0, 0), (2, 1), (0, 31), (2, 31)].into_iter().enumerate() {
            stock.push(vec![0x0A, op, length(turn), 1, bits, 2, shift, s]);
        }
    }
}

/// "Rn (0 for BFC)"; "width is 1 to 32 - lsb".
fn fields(stock: &mut Stock) {
    for op in 0..4 {
        let rn = if op == 0 { 0 } else { 2 };
        for (turn, (lsb, width)) in [(0, 1), (0, 32), (8, 12), (31, 1)].into_iter().enumerate() {
            stock.push(vec![0x0B, op, length(turn), 1, rn, lsb, width]);
        }
    }
}

fn unary(stock: &mut Stock) {
    for (op, form) in (0..5).flat_map(|op| LENGTHS.map(|form| (op, form))) {
        stock.push(vec![0x06, op, form, 1, 2]);
    }
    for op in 0..4 {
        for (turn, rotation) in [0, 8, 16, 24].into_iter().enumerate() {
            stock.push(vec![0x0C, op, length(turn), 1, 2, rotation]);
        }
    }
}
