//! All ways to be refused with 5, 6 and 7.

use super::standing::*;
use super::{ops, Case, Part, Sort};
use crate::runs::kinds::reach::Reach::{self, *};
use crate::steps::aim::width;

const UNALIGNED: u32 = 5;
const OUTSIDE: u32 = 6;
const BAD_VALUE: u32 = 7;

pub fn add(cases: &mut Vec<Case>) {
    let mut refuse = |number, (kind, op), parts: &[Part], reach| {
        let case = Case::new(Sort::Refused, number, (kind, op), parts);
        cases.push(Case { reach, ..case });
    };
    unaligned(&mut |kind, op, parts| refuse(UNALIGNED, (kind, op), parts, Some(Whole)));
    outside(&mut |kind, op, parts, reach| refuse(OUTSIDE, (kind, op), parts, Some(reach)));
    bad_values(&mut |kind, op, parts| refuse(BAD_VALUE, (kind, op), parts, None));
}

/// "LDR to R15 wants a multiple of 4, as do kinds 0F and 10."
fn unaligned(refuse: &mut impl FnMut(u8, u8, &[Part])) {
    for mode in MODES {
        refuse(0x0D, LDR, &[RT_15, mode]);
    }
    refuse(0x0E, LDR, &[RT_15]);
    pairs_and_lists(|kind, op, part| refuse(kind, op, &[part]));
}

/// "some accessed byte is not in memory": none of them, or those at one end.
fn outside(refuse: &mut impl FnMut(u8, u8, &[Part], Reach)) {
    for reach in [First, Last, Outside] {
        for op in ops(0x0D).filter(|&op| reach == Outside || width(op) > 1) {
            for mode in MODES {
                refuse(0x0D, op, &[mode], reach);
            }
            refuse(0x0E, op, &[], reach);
        }
        pairs_and_lists(|kind, op, part| refuse(kind, op, &[part], reach));
        refuse(0x16, 1, &[], reach);
    }
    refuse(0x16, 0, &[], Outside);
}

fn pairs_and_lists(mut refuse: impl FnMut(u8, u8, Part)) {
    for (op, mode) in ops(0x0F).flat_map(|op| DUAL_MODES.map(|mode| (op, mode))) {
        refuse(0x0F, op, mode);
    }
    for (op, back) in ops(0x10).flat_map(|op| WRITE_BACK.map(|back| (op, back))) {
        refuse(0x10, op, back);
    }
}

/// "value for R15 by LDR, LDM, BX or BLX has bit 0 clear, or value for R13 is not a multiple of 4": a
/// base that is written back too. What 0F and 10 write back to R13 is always a multiple of 4.
fn bad_values(refuse: &mut impl FnMut(u8, u8, &[Part])) {
    for (op, s) in [ADD, SUB].into_iter().flat_map(|op| [(op, WITHOUT_S), (op, WITH_S)]) {
        refuse(0x01, op, &[RD_13, RN_13, LSL, BELOW_2, s]);
        refuse(0x02, op, &[RD_13, RN_13, s]);
    }
    for rm in [RM_LOW, RM_15] {
        refuse(0x01, MOV, &[RD_13, rm, LSL, NO_SHIFT, WITHOUT_S]);
    }
    for op in ops(0x04) {
        refuse(0x04, op, &[RD_13, RN_13]);
    }
    for rt in [RT_13, RT_15] {
        for mode in MODES {
            refuse(0x0D, LDR, &[rt, mode]);
        }
        refuse(0x0E, LDR, &[rt]);
    }
    for (op, mode) in ops(0x0D).flat_map(|op| [(op, MODES[1]), (op, MODES[2])]) {
        refuse(0x0D, op, &[RN_13, mode]);
    }
    refuse(0x0D, LDR, &[RT_15, RN_13, MODES[2]]);
    for (op, back) in [0, 1].into_iter().flat_map(|op| WRITE_BACK.map(|back| (op, back))) {
        refuse(0x10, op, &[LISTED_15, back]);
        refuse(0x10, op, &[FIRST_13, LISTED_15, back]);
    }
    for op in ops(0x12) {
        refuse(0x12, op, &[TO_LOW]);
        refuse(0x12, op, &[TO_13]);
    }
    refuse(0x12, 0, &[TO_15]);
}
