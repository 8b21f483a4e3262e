//! "Restricted (3)": all places where R13 and R15 may stand.

use super::{byte, ops, Case, Part, Sort};

pub const ADD: u8 = 0;
pub const SUB: u8 = 2;
pub const MOV: u8 = 10;
const CMP: u8 = 12;
const CMN: u8 = 13;
pub const LDR: u8 = 0;
pub const STR: u8 = 5;
/// LDR to LDRSH.
const LOADS: u8 = 5;

pub const RD_13: Part = byte("Rd 13", 3, 13);
pub const RD_15: Part = byte("Rd 15", 3, 15);
pub const RN_13: Part = byte("Rn 13", 4, 13);
pub const RN_15: Part = byte("Rn 15", 4, 15);
pub const RM_13: Part = byte("Rm 13", 5, 13);
pub const RM_15: Part = byte("Rm 15", 5, 15);
pub const RM_LOW: Part = Part { words: "Rm 0 to 7", place: 5, mask: 0xF8, value: 0 };
pub const WITHOUT_S: Part = Part { words: "without S", place: 2, mask: 1, value: 0 };
pub const WITH_S: Part = Part { words: "with S", place: 2, mask: 1, value: 1 };
/// Of kind 01: LSL, with an amount of 0, below 2, below 4.
pub const LSL: Part = byte("LSL", 6, 0);
pub const NO_SHIFT: Part = byte("by 0", 7, 0);
pub const BELOW_2: Part = Part { words: "by 0 or 1", place: 7, mask: 0xFE, value: 0 };
const BELOW_4: Part = Part { words: "by 0 to 3", place: 7, mask: 0xFC, value: 0 };
/// Of kinds 0D and 0E.
pub const RT_13: Part = byte("Rt 13", 3, 13);
pub const RT_15: Part = byte("Rt 15", 3, 15);
pub const MODES: [Part; 3] = [byte("mode 0", 5, 0), byte("mode 1", 5, 1), byte("mode 2", 5, 2)];
/// Of kind 0F.
const BASE_13: Part = byte("Rn 13", 5, 13);
const BASE_15: Part = byte("Rn 15", 5, 15);
pub const DUAL_MODES: [Part; 3] =
    [byte("mode 0", 6, 0), byte("mode 1", 6, 1), byte("mode 2", 6, 2)];
/// Of kind 10, and Rn of kind 16.
pub const FIRST_13: Part = byte("Rn 13", 3, 13);
const FIRST_15: Part = byte("Rn 15", 3, 15);
pub const WRITE_BACK: [Part; 2] = [byte("no write-back", 4, 0), byte("write-back", 4, 1)];
pub const LISTED_15: Part = Part { words: "15 in its list", place: 6, mask: 0x80, value: 0x80 };
/// Of kind 12.
pub const TO_13: Part = byte("Rm 13", 3, 13);
pub const TO_15: Part = byte("Rm 15", 3, 15);
pub const TO_LOW: Part = Part { words: "Rm 0 to 7", place: 3, mask: 0xF8, value: 0 };

pub fn add(cases: &mut Vec<Case>) {
    let mut stand = |kind, op, parts: &[Part]| {
        cases.push(Case::new(Sort::Standing, 0, (kind, op), parts));
    };
    data(&mut stand);
    singles(&mut stand);
    multiples(&mut stand);
    for op in ops(0x16) {
        stand(0x16, op, &[FIRST_15]);
    }
    // R13, and R15 as an operand, have bit 0 clear
    for (op, part) in [(0, TO_13), (0, TO_15), (1, TO_13)] {
        cases.push(Case::new(Sort::Standing, 7, (0x12, op), &[part]));
    }
}

/// "ADD, SUB with Rn 13; with Rd 13 if Rn is 13 and any shift is LSL 0 to 3; CMP, CMN with Rn 13; MOV
/// register without shift or S, any Rd and Rm; ADD R15, R15, Rm without shift or S, ..; kind 04 with
/// Rn 13 (then Rd may be 13) or with Rn 15".
fn data(stand: &mut impl FnMut(u8, u8, &[Part])) {
    for (op, s) in [ADD, SUB].into_iter().flat_map(|op| [(op, WITHOUT_S), (op, WITH_S)]) {
        stand(0x01, op, &[RN_13, s]);
        stand(0x01, op, &[RD_13, RN_13, LSL, BELOW_4, s]);
        stand(0x02, op, &[RN_13, s]);
        stand(0x02, op, &[RD_13, RN_13, s]);
    }
    for (kind, op) in [(0x01, CMP), (0x01, CMN), (0x02, CMP), (0x02, CMN)] {
        stand(kind, op, &[RN_13]);
    }
    for part in [RD_13, RD_15, RM_13, RM_15] {
        stand(0x01, MOV, &[part, LSL, NO_SHIFT, WITHOUT_S]);
    }
    for (rd, rm) in [RD_13, RD_15].into_iter().flat_map(|rd| [(rd, RM_13), (rd, RM_15)]) {
        stand(0x01, MOV, &[rd, rm, LSL, NO_SHIFT, WITHOUT_S]);
    }
    stand(0x01, ADD, &[RD_15, RN_15, LSL, NO_SHIFT, WITHOUT_S]);
    for op in ops(0x04) {
        stand(0x04, op, &[RN_13]);
        stand(0x04, op, &[RD_13, RN_13]);
        stand(0x04, op, &[RN_15]);
    }
}

/// "Rt 13 or 15 only in LDR, Rt 13 in STR. Rn 15 only in loads 0D and 0F, mode 0."
fn singles(stand: &mut impl FnMut(u8, u8, &[Part])) {
    for mode in MODES {
        for (op, rt) in [(LDR, RT_13), (LDR, RT_15), (STR, RT_13)] {
            stand(0x0D, op, &[rt, mode]);
        }
        for op in ops(0x0D) {
            stand(0x0D, op, &[RN_13, mode]);
        }
        stand(0x0D, LDR, &[RT_15, RN_13, mode]);
    }
    for op in 0..LOADS {
        stand(0x0D, op, &[RN_15]);
    }
    for rt in [RT_13, RT_15] {
        stand(0x0D, LDR, &[rt, RN_15]);
        stand(0x0E, LDR, &[rt]);
        stand(0x0E, LDR, &[rt, RN_13]);
    }
    stand(0x0D, LDR, &[RT_13, RN_13]);
    stand(0x0D, STR, &[RT_13, RN_13]);
    stand(0x0E, STR, &[RT_13]);
    stand(0x0E, STR, &[RT_13, RN_13]);
    for op in ops(0x0E) {
        stand(0x0E, op, &[RN_13]);
    }
}

/// "In 10: list not empty, without 13; stores without 15; ..; Rn not 15."
fn multiples(stand: &mut impl FnMut(u8, u8, &[Part])) {
    for (op, mode) in ops(0x0F).flat_map(|op| DUAL_MODES.map(|mode| (op, mode))) {
        stand(0x0F, op, &[BASE_13, mode]);
    }
    stand(0x0F, 0, &[BASE_15]);
    for (op, back) in ops(0x10).flat_map(|op| WRITE_BACK.map(|back| (op, back))) {
        stand(0x10, op, &[FIRST_13, back]);
        if op < 2 {
            stand(0x10, op, &[LISTED_15, back]);
            stand(0x10, op, &[FIRST_13, LISTED_15, back]);
        }
    }
}
