//! "Restricted (3)" and "Block spots (4)", and where a filler may stand.

use crate::machine::{Register, LR, PC, SP};
use crate::number::{Number, MISPLACED, RESTRICTED};
use crate::record::*;
use crate::waiting::AL;
use crate::word;

/// Number 3 or 4, the lower first, for a record that was read and is stepped alone, or for any
/// record of a listing but a filler.
pub fn refusal(record: &Record, waiting: usize) -> Option<Number> {
    if restricted(record) {
        Some(RESTRICTED)
    } else if misplaced(record, waiting) {
        Some(MISPLACED)
    } else {
        None
    }
}

/// Order 1: may a filler stand behind this record, with so many conditions waiting at it? "only after
/// an unconditional B outside a block, after BX outside a block, after kind 16 outside a block, after
/// another filler" (S13, S14). Such a record is neither an IT nor in a block, so the filler "can't be
/// in a block" either (S15).
pub fn filler_may_follow(record: &Record, waiting: usize) -> bool {
    let leaves = match record.action {
        Action::Control(Control::Branch { links, condition, .. }) => !links && condition == AL,
        Action::Control(Control::BranchTo { links, .. }) => !links,
        Action::Control(Control::TableBranch { .. }) | Action::Filler { .. } => true,
        _ => false,
    };
    leaves && waiting == 0
}

fn restricted(record: &Record) -> bool {
    match &record.action {
        Action::Compute(compute) => compute_restricted(compute, record.s),
        Action::Access(access) => access_restricted(access),
        Action::Control(control) => control_restricted(control),
        // "stepping a filler alone is 3"
        Action::Filler { .. } => true,
    }
}

fn special(register: Register) -> bool {
    register == SP || register == PC
}

/// "R13 and R15 nowhere in 01 to 0C, except ..". Fields that are 0 for an op pass as R0.
fn compute_restricted(compute: &Compute, s: bool) -> bool {
    match *compute {
        Compute::Operate { op, rd, rn, operand } => operate_restricted(op, s, rd, rn, operand),
        Compute::ShiftBy { rd, rn, rs, .. } => special(rd) || special(rn) || special(rs),
        // "kind 04 with Rn 13 (then Rd may be 13) or with Rn 15"
        Compute::Wide { rd, rn, .. } => special(rd) && !(rd == SP && rn == SP),
        Compute::Half { rd, .. } => special(rd),
        Compute::Bits { rd, rm, .. } => special(rd) || special(rm),
        Compute::Product { rd, rn, rm, ra, .. } => {
            let anywhere = special(rd) || special(rn) || special(rm) || special(ra);
            // "MULS wants R0 to R7 and Rd = Rm."
            anywhere || s && (rd > 7 || rn > 7 || rm > 7 || rd != rm)
        }
        // "Long multiplies want RdLo and RdHi different."
        Compute::Long { low, high, rn, rm, .. } => {
            special(low) || special(high) || special(rn) || special(rm) || low == high
        }
        Compute::Divide { rd, rn, rm, .. } => special(rd) || special(rn) || special(rm),
        Compute::Saturate { rd, rm, .. } => special(rd) || special(rm),
        Compute::Field { rd, rn, .. } => special(rd) || special(rn),
        Compute::Extend { rd, rm, .. } => special(rd) || special(rm),
    }
}

fn operate_restricted(op: Op, s: bool, rd: Register, rn: Register, operand: Operand) -> bool {
    let plain = matches!(operand, Operand::Shifted { shift: Shift::Lsl, n: 0, .. });
    // "MOV register without shift or S, any Rd and Rm"
    if op == Op::Mov && plain && !s {
        return false;
    }
    // "ADD R15, R15, Rm without shift or S, Rm not 13 or 15"; no other exception names Rm
    if matches!(operand, Operand::Shifted { rm, .. } if special(rm)) {
        return true;
    }
    if op == Op::Add && plain && !s && rd == PC && rn == PC {
        return false;
    }
    // "ADD, SUB with Rn 13"; "CMP, CMN with Rn 13"
    let rn_allowed = rn == SP && matches!(op, Op::Add | Op::Sub | Op::Cmp | Op::Cmn);
    // "with Rd 13 if Rn is 13 and any shift is LSL 0 to 3"
    let short_shift = match operand {
        Operand::Shifted { shift, n, .. } => shift == Shift::Lsl && n <= 3,
        Operand::Constant(_) => true,
    };
    let rd_allowed = rd == SP && rn == SP && matches!(op, Op::Add | Op::Sub) && short_shift;
    special(rn) && !rn_allowed || special(rd) && !rd_allowed
}

/// "Rt 13 or 15 only in LDR, Rt 13 in STR."
fn rt_restricted(op: Single, rt: Register) -> bool {
    match op {
        Single::Ldr => false,
        Single::Str => rt == PC,
        _ => special(rt),
    }
}

fn access_restricted(access: &Access) -> bool {
    match *access {
        // "Rn 15 only in loads 0D and 0F, mode 0. Rn is not Rt or Rt2 in modes 1, 2."
        Access::Single { op, rt, rn, mode, .. } => {
            rt_restricted(op, rt)
                || rn == PC && !(op.loads() && mode == Mode::Offset)
                || mode != Mode::Offset && rn == rt
        }
        // "Rm of 0E is not 13 or 15."
        Access::Indexed { op, rt, rn, rm, .. } => rt_restricted(op, rt) || rn == PC || special(rm),
        // "In 0F Rt, Rt2 are not 13 or 15, and LDRD wants them different."
        Access::Double { stores, rt, rt2, rn, mode, .. } => {
            special(rt)
                || special(rt2)
                || !stores && rt == rt2
                || rn == PC && (stores || mode != Mode::Offset)
                || mode != Mode::Offset && (rn == rt || rn == rt2)
        }
        Access::Multiple { op, rn, write_back, list } => {
            multiple_restricted(op.loads(), rn, write_back, list)
        }
    }
}

/// "list not empty, without 13; stores without 15; loads without 14 and 15 together; no Rn in the
/// list with write-back; Rn not 15."
fn multiple_restricted(loads: bool, rn: Register, write_back: bool, list: u16) -> bool {
    let has_pc = word::holds(list, PC);
    list == 0
        || word::holds(list, SP)
        || has_pc && (!loads || word::holds(list, LR))
        || write_back && word::holds(list, rn)
        || rn == PC
}

fn control_restricted(control: &Control) -> bool {
    match *control {
        // "BLX not 15."
        Control::BranchTo { links, rm } => links && rm == PC,
        // "IT with AL has no else."
        Control::IfThen { condition, elses, .. } => condition == AL && elses != 0,
        // "Rn not 13, Rm not 13 or 15"
        Control::TableBranch { rn, rm, .. } => rn == SP || special(rm),
        Control::Branch { .. } | Control::CompareBranch { .. } | Control::Nop => false,
    }
}

fn is_muls(record: &Record) -> bool {
    record.s && matches!(record.action, Action::Compute(Compute::Product { .. }))
}

/// "IT, CBZ, CBNZ, MULS, and B with its own condition (not AL) only with no conditions waiting."
fn only_outside(record: &Record) -> bool {
    match record.action {
        Action::Control(Control::IfThen { .. } | Control::CompareBranch { .. }) => true,
        Action::Control(Control::Branch { condition, .. }) => condition != AL,
        _ => is_muls(record),
    }
}

/// "Any record that branches, or has R15 as Rd, Rt or in a load's list, only with at most one
/// waiting." R15 as Rd or Rt of any record but those that take an address is restricted. Kind 16 is
/// "last in its block" (S7).
fn only_last(record: &Record) -> bool {
    record.takes_address() || record.direct_target(0).is_some()
}

fn misplaced(record: &Record, waiting: usize) -> bool {
    waiting > 0 && only_outside(record) || waiting > 1 && only_last(record)
}
