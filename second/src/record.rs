//! A record, read and taken apart. The names are those of paper 01's table, in its order.

use crate::machine::{Register, PC};
use crate::waiting::Condition;
use crate::word;

#[derive(Clone, Copy, PartialEq, Eq, Debug)]
pub enum Op {
    Add,
    Adc,
    Sub,
    Sbc,
    Rsb,
    And,
    Orr,
    Eor,
    Bic,
    Orn,
    Mov,
    Mvn,
    Cmp,
    Cmn,
    Tst,
    Teq,
}

impl Op {
    /// "the last four", which have no Rd.
    pub fn only_compares(self) -> bool {
        matches!(self, Op::Cmp | Op::Cmn | Op::Tst | Op::Teq)
    }

    pub fn only_moves(self) -> bool {
        matches!(self, Op::Mov | Op::Mvn)
    }
}

#[derive(Clone, Copy, PartialEq, Eq, Debug)]
pub enum Shift {
    Lsl,
    Lsr,
    Asr,
    Ror,
    Rrx,
}

#[derive(Clone, Copy, PartialEq, Eq, Debug)]
pub enum Operand {
    Shifted { rm: Register, shift: Shift, n: u8 },
    Constant(u32),
}

#[derive(Clone, Copy, PartialEq, Eq, Debug)]
pub enum Bits {
    Clz,
    Rev,
    Rev16,
    Revsh,
    Rbit,
}

#[derive(Clone, Copy, PartialEq, Eq, Debug)]
pub enum Product {
    Mul,
    Mla,
    Mls,
}

#[derive(Clone, Copy, PartialEq, Eq, Debug)]
pub enum Long {
    Umull,
    Umlal,
    Smull,
    Smlal,
}

#[derive(Clone, Copy, PartialEq, Eq, Debug)]
pub enum Field {
    Bfc,
    Bfi,
    Sbfx,
    Ubfx,
}

#[derive(Clone, Copy, PartialEq, Eq, Debug)]
pub enum Extend {
    Sxtb,
    Sxth,
    Uxtb,
    Uxth,
}

#[derive(Clone, Copy, PartialEq, Eq, Debug)]
pub enum Single {
    Ldr,
    Ldrb,
    Ldrh,
    Ldrsb,
    Ldrsh,
    Str,
    Strb,
    Strh,
}

impl Single {
    pub fn loads(self) -> bool {
        !matches!(self, Single::Str | Single::Strb | Single::Strh)
    }
}

#[derive(Clone, Copy, PartialEq, Eq, Debug)]
pub enum Multiple {
    Ldmia,
    Ldmdb,
    Stmia,
    Stmdb,
}

impl Multiple {
    pub fn loads(self) -> bool {
        matches!(self, Multiple::Ldmia | Multiple::Ldmdb)
    }

    pub fn ascends(self) -> bool {
        matches!(self, Multiple::Ldmia | Multiple::Stmia)
    }
}

/// "Modes: 0 offset, 1 pre-indexed, 2 post-indexed."
#[derive(Clone, Copy, PartialEq, Eq, Debug)]
pub enum Mode {
    Offset,
    PreIndexed,
    PostIndexed,
}

/// Kinds 01 to 0C.
#[derive(Clone, Copy, PartialEq, Eq, Debug)]
pub enum Compute {
    Operate { op: Op, rd: Register, rn: Register, operand: Operand },
    ShiftBy { shift: Shift, rd: Register, rn: Register, rs: Register },
    Wide { subtracts: bool, rd: Register, rn: Register, number: u16 },
    Half { top: bool, rd: Register, number: u16 },
    Bits { op: Bits, rd: Register, rm: Register },
    Product { op: Product, rd: Register, rn: Register, rm: Register, ra: Register },
    Long { op: Long, low: Register, high: Register, rn: Register, rm: Register },
    Divide { unsigned: bool, rd: Register, rn: Register, rm: Register },
    Saturate { unsigned: bool, rd: Register, bits: u8, rm: Register, shift: Shift, s: u8 },
    Field { op: Field, rd: Register, rn: Register, lsb: u8, width: u8 },
    Extend { op: Extend, rd: Register, rm: Register, rotation: u8 },
}

/// Kinds 0D to 10.
#[derive(Clone, Copy, PartialEq, Eq, Debug)]
pub enum Access {
    Single { op: Single, rt: Register, rn: Register, mode: Mode, offset: i16 },
    Indexed { op: Single, rt: Register, rn: Register, rm: Register, n: u8 },
    Double { stores: bool, rt: Register, rt2: Register, rn: Register, mode: Mode, offset: i16 },
    Multiple { op: Multiple, rn: Register, write_back: bool, list: u16 },
}

/// Kinds 11 to 15, and kind 16 of order 1: TBB, and TBH, which reads halves.
#[derive(Clone, Copy, PartialEq, Eq, Debug)]
pub enum Control {
    Branch { links: bool, condition: Condition, offset: i32 },
    BranchTo { links: bool, rm: Register },
    CompareBranch { nonzero: bool, rn: Register, offset: u8 },
    IfThen { condition: Condition, count: u8, elses: u8 },
    Nop,
    TableBranch { halves: bool, rn: Register, rm: Register },
}

/// Kind 17 of order 1 is "a filler of 2 to 65,534 machine bytes, even".
#[derive(Clone, Copy, PartialEq, Eq, Debug)]
pub enum Action {
    Compute(Compute),
    Access(Access),
    Control(Control),
    Filler { bytes: u16 },
}

/// "Form byte: bit 0 S, bit 1 set for 4 machine bytes, clear for 2". A filler has no form byte (S4);
/// both bits are clear in it.
#[derive(Clone, Copy, PartialEq, Eq, Debug)]
pub struct Record {
    pub s: bool,
    pub four_bytes: bool,
    pub action: Action,
}

impl Record {
    /// By the form, or a filler's number (S5).
    pub fn machine_length(&self) -> u32 {
        match self.action {
            Action::Filler { bytes } => u32::from(bytes),
            _ if self.four_bytes => 4,
            _ => 2,
        }
    }

    /// "B, BL, CBZ and CBNZ are direct." "A direct branch goes to its own address plus 4 plus the
    /// offset."
    pub fn direct_target(&self, address: u32) -> Option<u32> {
        let offset = match self.action {
            Action::Control(Control::Branch { offset, .. }) => offset,
            Action::Control(Control::CompareBranch { offset, .. }) => i32::from(offset),
            _ => return None,
        };
        Some(word::moved(address.wrapping_add(4), offset))
    }

    /// "A step takes its next address from a register or from memory just when .. its record is BX,
    /// BLX, MOV or ADD with Rd 15, LDR with Rt 15, or a load of kind 10 with 15 in its list." Order 1:
    /// "Kind 16 counts as taking its address from memory."
    pub fn takes_address(&self) -> bool {
        match self.action {
            Action::Control(Control::BranchTo { .. } | Control::TableBranch { .. }) => true,
            Action::Compute(Compute::Operate { op: Op::Mov | Op::Add, rd, .. }) => rd == PC,
            Action::Access(Access::Single { op: Single::Ldr, rt, .. }) => rt == PC,
            Action::Access(Access::Indexed { op: Single::Ldr, rt, .. }) => rt == PC,
            Action::Access(Access::Multiple { op, list, .. }) => {
                op.loads() && word::holds(list, PC)
            }
            _ => false,
        }
    }
}
