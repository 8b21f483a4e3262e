//! Kinds 01 to 0C. Operands come from the machine as it is, results go to the next one.

use crate::machine::{Machine, Register};
use crate::number::Number;
use crate::record::*;
use crate::word;

pub fn compute(now: &Machine, next: &mut Machine, action: &Compute, s: bool) -> Result<(), Number> {
    let (rd, value) = match *action {
        Compute::Operate { op, rd, rn, operand } => {
            let value = operate(now, next, op, s, rn, operand);
            if op.only_compares() {
                return Ok(());
            }
            (rd, value)
        }
        Compute::ShiftBy { shift, rd, rn, rs } => (rd, shift_by(now, next, s, shift, rn, rs)),
        Compute::Wide { subtracts, rd, rn, number } => (rd, wide(subtracts, now.base(rn), number)),
        Compute::Half { top, rd, number } => (rd, half(top, now.operand(rd), number)),
        Compute::Bits { op, rd, rm } => (rd, bits(op, now.operand(rm))),
        Compute::Product { op, rd, rn, rm, ra } => {
            let value = product(op, now.operand(rn), now.operand(rm), now.operand(ra));
            if s {
                // "MULS sets N, Z."
                next.set_nz(value);
            }
            (rd, value)
        }
        Compute::Long { op, low, high, rn, rm } => {
            let sum = word::join(now.operand(low), now.operand(high));
            let (l, h) = word::split(long(op, now.operand(rn), now.operand(rm), sum));
            next.put(high, h)?;
            (low, l)
        }
        Compute::Divide { unsigned, rd, rn, rm } => {
            (rd, divide(unsigned, now.operand(rn), now.operand(rm)))
        }
        Compute::Saturate { unsigned, rd, bits, rm, shift, s } => {
            let x = shifted(shift, now.operand(rm), u32::from(s), now.c).0;
            let (value, saturated) = saturate(unsigned, x, u32::from(bits));
            // "Saturation only ever sets Q".
            next.q |= saturated;
            (rd, value)
        }
        Compute::Field { op, rd, rn, lsb, width } => {
            (rd, field(op, now.operand(rd), now.operand(rn), u32::from(lsb), u32::from(width)))
        }
        Compute::Extend { op, rd, rm, rotation } => (rd, extend(op, now.operand(rm), rotation)),
    };
    next.put(rd, value)
}

/// "Arithmetic sets all four"; "Logic, moves and kind 03 set N, Z and C from the shifter, never V."
fn operate(
    now: &Machine,
    next: &mut Machine,
    op: Op,
    s: bool,
    rn: Register,
    operand: Operand,
) -> u32 {
    let x = now.operand(rn);
    let (y, carry) = second(now, operand);
    let (value, c, v) = match op {
        Op::Add | Op::Cmn => word::sum(x, y, false),
        Op::Adc => word::sum(x, y, now.c),
        Op::Sub | Op::Cmp => word::difference(x, y, true),
        Op::Sbc => word::difference(x, y, now.c),
        Op::Rsb => word::difference(y, x, true),
        Op::And | Op::Tst => (x & y, carry, now.v),
        Op::Orr => (x | y, carry, now.v),
        Op::Eor | Op::Teq => (x ^ y, carry, now.v),
        Op::Bic => (x & !y, carry, now.v),
        Op::Orn => (x | !y, carry, now.v),
        Op::Mov => (y, carry, now.v),
        Op::Mvn => (!y, carry, now.v),
    };
    set_logic_flags(next, s, value, c);
    if s {
        next.v = v;
    }
    value
}

/// Order 2: "in kind 03 the amount is 0 to 255, the lowest eight bits. Amount 0 then leaves C alone
/// even when Rs isn't zero."
fn shift_by(
    now: &Machine,
    next: &mut Machine,
    s: bool,
    shift: Shift,
    rn: Register,
    rs: Register,
) -> u32 {
    let (value, carry) = shifted(shift, now.operand(rn), now.operand(rs) & 0xFF, now.c);
    set_logic_flags(next, s, value, carry);
    value
}

/// "N, Z, C, V change only with S."
fn set_logic_flags(next: &mut Machine, s: bool, value: u32, carry: bool) {
    if s {
        next.set_nz(value);
        next.c = carry;
    }
}

/// The second operand and the shifter's carry.
fn second(now: &Machine, operand: Operand) -> (u32, bool) {
    match operand {
        Operand::Shifted { rm, shift, n } => shifted(shift, now.operand(rm), u32::from(n), now.c),
        Operand::Constant(constant) => (constant, word::constant_carry(constant, now.c)),
    }
}

pub fn shifted(shift: Shift, x: u32, amount: u32, carry: bool) -> (u32, bool) {
    match shift {
        Shift::Lsl => word::lsl(x, amount, carry),
        Shift::Lsr => word::lsr(x, amount, carry),
        Shift::Asr => word::asr(x, amount, carry),
        Shift::Ror => word::ror(x, amount, carry),
        Shift::Rrx => word::rrx(x, carry),
    }
}

fn wide(subtracts: bool, x: u32, number: u16) -> u32 {
    let number = i32::from(number);
    word::moved(x, if subtracts { -number } else { number })
}

/// MOVT keeps the low half of Rd.
fn half(top: bool, d: u32, number: u16) -> u32 {
    let number = u32::from(number);
    if top {
        word::insert_field(d, number, 16, 16)
    } else {
        number
    }
}

pub fn bits(op: Bits, x: u32) -> u32 {
    match op {
        Bits::Clz => x.leading_zeros(),
        Bits::Rev => x.swap_bytes(),
        Bits::Rev16 => word::rev16(x),
        Bits::Revsh => word::revsh(x),
        Bits::Rbit => x.reverse_bits(),
    }
}

pub fn product(op: Product, x: u32, y: u32, a: u32) -> u32 {
    let xy = x.wrapping_mul(y);
    match op {
        Product::Mul => xy,
        Product::Mla => a.wrapping_add(xy),
        Product::Mls => a.wrapping_sub(xy),
    }
}

pub fn long(op: Long, x: u32, y: u32, sum: u64) -> u64 {
    match op {
        Long::Umull => word::unsigned_product(x, y),
        Long::Umlal => word::unsigned_product(x, y).wrapping_add(sum),
        Long::Smull => word::signed_product(x, y),
        Long::Smlal => word::signed_product(x, y).wrapping_add(sum),
    }
}

pub fn divide(unsigned: bool, x: u32, y: u32) -> u32 {
    if unsigned {
        word::unsigned_quotient(x, y)
    } else {
        word::signed_quotient(x, y)
    }
}

pub fn saturate(unsigned: bool, x: u32, bits: u32) -> (u32, bool) {
    if unsigned {
        word::saturate_unsigned(x, bits)
    } else {
        word::saturate_signed(x, bits)
    }
}

pub fn field(op: Field, d: u32, x: u32, lsb: u32, width: u32) -> u32 {
    match op {
        Field::Bfc => word::clear_field(d, lsb, width),
        Field::Bfi => word::insert_field(d, x, lsb, width),
        Field::Sbfx => word::extract_signed(x, lsb, width),
        Field::Ubfx => word::extract_unsigned(x, lsb, width),
    }
}

pub fn extend(op: Extend, x: u32, rotation: u8) -> u32 {
    let x = x.rotate_right(u32::from(rotation));
    match op {
        Extend::Sxtb => word::sign_extend_byte(x),
        Extend::Sxth => word::sign_extend_half(x),
        Extend::Uxtb => x & 0xFF,
        Extend::Uxth => x & 0xFFFF,
    }
}
