//! Reading a record. Every rule under "Records" that is broken is number 2.

use crate::machine::{Register, PC};
use crate::number::{Number, MALFORMED};
use crate::record::*;
use crate::waiting::{Condition, AL};
use crate::word;

/// "One byte of kind (hex), then a body whose length the kind fixes", from kind 01. Kinds 14 and 15
/// have no op byte (R1), kind 17 has its number alone (S4).
const BODY: [usize; 23] = [7, 8, 5, 6, 5, 4, 6, 6, 5, 7, 6, 5, 7, 6, 8, 6, 7, 3, 4, 4, 1, 4, 2];

const OPS: [Op; 16] = [
    Op::Add,
    Op::Adc,
    Op::Sub,
    Op::Sbc,
    Op::Rsb,
    Op::And,
    Op::Orr,
    Op::Eor,
    Op::Bic,
    Op::Orn,
    Op::Mov,
    Op::Mvn,
    Op::Cmp,
    Op::Cmn,
    Op::Tst,
    Op::Teq,
];
const SHIFTS: [Shift; 5] = [Shift::Lsl, Shift::Lsr, Shift::Asr, Shift::Ror, Shift::Rrx];
const BITS: [Bits; 5] = [Bits::Clz, Bits::Rev, Bits::Rev16, Bits::Revsh, Bits::Rbit];
const PRODUCTS: [Product; 3] = [Product::Mul, Product::Mla, Product::Mls];
const LONGS: [Long; 4] = [Long::Umull, Long::Umlal, Long::Smull, Long::Smlal];
const FIELDS: [Field; 4] = [Field::Bfc, Field::Bfi, Field::Sbfx, Field::Ubfx];
const EXTENDS: [Extend; 4] = [Extend::Sxtb, Extend::Sxth, Extend::Uxtb, Extend::Uxth];
const SINGLES: [Single; 8] = [
    Single::Ldr,
    Single::Ldrb,
    Single::Ldrh,
    Single::Ldrsb,
    Single::Ldrsh,
    Single::Str,
    Single::Strb,
    Single::Strh,
];
const MULTIPLES: [Multiple; 4] =
    [Multiple::Ldmia, Multiple::Ldmdb, Multiple::Stmia, Multiple::Stmdb];
const MODES: [Mode; 3] = [Mode::Offset, Mode::PreIndexed, Mode::PostIndexed];

/// The record at a place of a listing and the listing bytes it takes.
pub fn read(bytes: &[u8], place: usize) -> Result<(Record, usize), Number> {
    bytes.get(place..).and_then(parse).ok_or(MALFORMED)
}

/// "The record comes as its bytes, one record and no more".
pub fn read_one(bytes: &[u8]) -> Result<Record, Number> {
    match parse(bytes) {
        Some((record, length)) if length == bytes.len() => Ok(record),
        _ => Err(MALFORMED),
    }
}

fn parse(bytes: &[u8]) -> Option<(Record, usize)> {
    let (&kind, rest) = bytes.split_first()?;
    let length = *BODY.get(usize::from(kind).checked_sub(1)?)?;
    let body = rest.get(..length)?;
    let action = match kind {
        0x01..=0x0C => Action::Compute(compute(kind, body)?),
        0x0D..=0x10 => Action::Access(access(kind, body)?),
        0x11..=0x16 => Action::Control(control(kind, body)?),
        _ => filler(body)?,
    };
    let form = form(kind, body);
    let record = Record { s: form & 1 == 1, four_bytes: form & 2 == 2, action };
    ensure(form <= 3 && s_fits(&record) && length_fits(&record))?;
    Some((record, 1 + length))
}

/// Behind the op, or first where there is none; a filler has none and is as with form 0.
fn form(kind: u8, body: &[u8]) -> u8 {
    match kind {
        0x14 | 0x15 => body[0],
        0x17 => 0,
        _ => body[1],
    }
}

fn ensure(holds: bool) -> Option<()> {
    holds.then_some(())
}

/// "Names in a row are ops 0, 1, 2 and on."
fn pick<T: Copy>(names: &[T], code: u8) -> Option<T> {
    names.get(usize::from(code)).copied()
}

/// Op 1 of a row with two names, or a write-back.
fn one(code: u8) -> Option<bool> {
    pick(&[false, true], code)
}

/// "registers 0 to 15".
fn reg(byte: u8) -> Option<Register> {
    (byte <= 15).then_some(byte)
}

/// "Conditions 0 to 14".
fn condition(byte: u8) -> Option<Condition> {
    (byte <= AL).then_some(byte)
}

/// "S may be 1 only in 01, 02, 03 and MUL"; "for the last four .. S is 1".
fn s_fits(record: &Record) -> bool {
    match record.action {
        Action::Compute(Compute::Operate { op, .. }) => record.s || !op.only_compares(),
        Action::Compute(Compute::ShiftBy { .. }) => true,
        Action::Compute(Compute::Product { op: Product::Mul, .. }) => true,
        _ => !record.s,
    }
}

/// "Kinds 12, 13, 14 are 2 machine bytes, BL is 4", and so is kind 16 (S3); else "the length is taken
/// as given (house)".
fn length_fits(record: &Record) -> bool {
    match record.action {
        Action::Control(Control::BranchTo { .. })
        | Action::Control(Control::CompareBranch { .. })
        | Action::Control(Control::IfThen { .. }) => !record.four_bytes,
        Action::Control(Control::Branch { links: true, .. })
        | Action::Control(Control::TableBranch { .. }) => record.four_bytes,
        _ => true,
    }
}

/// "0 LSL 0 to 31, 1 LSR 1 to 32, 2 ASR 1 to 32, 3 ROR 1 to 31, 4 RRX with n = 0".
fn shifted(rm: u8, shift: u8, n: u8) -> Option<Operand> {
    let shift = pick(&SHIFTS, shift)?;
    ensure(match shift {
        Shift::Lsl => n <= 31,
        Shift::Lsr | Shift::Asr => (1..=32).contains(&n),
        Shift::Ror => (1..=31).contains(&n),
        Shift::Rrx => n == 0,
    })?;
    Some(Operand::Shifted { rm: reg(rm)?, shift, n })
}

fn constant(bytes: [u8; 4]) -> Option<Operand> {
    let constant = u32::from_le_bytes(bytes);
    ensure(word::is_constant(constant))?;
    Some(Operand::Constant(constant))
}

/// "Rn is 0 for MOV, MVN; for the last four Rd is 0".
fn operate(op: u8, rd: u8, rn: u8, operand: Operand) -> Option<Compute> {
    let op = pick(&OPS, op)?;
    ensure(!op.only_moves() || rn == 0)?;
    ensure(!op.only_compares() || rd == 0)?;
    Some(Compute::Operate { op, rd: reg(rd)?, rn: reg(rn)?, operand })
}

/// "Ra (0 for MUL)".
fn product(op: u8, rd: u8, rn: u8, rm: u8, ra: u8) -> Option<Compute> {
    let op = pick(&PRODUCTS, op)?;
    ensure(op != Product::Mul || ra == 0)?;
    Some(Compute::Product { op, rd: reg(rd)?, rn: reg(rn)?, rm: reg(rm)?, ra: reg(ra)? })
}

/// "kind 0A has only LSL 0 to 31 and ASR 1 to 31"; "SSAT n is 1 to 32, USAT 0 to 31".
fn saturate(op: u8, rd: u8, bits: u8, rm: u8, shift: u8, s: u8) -> Option<Compute> {
    let unsigned = one(op)?;
    ensure(if unsigned { bits <= 31 } else { (1..=32).contains(&bits) })?;
    let shift = pick(&SHIFTS, shift)?;
    ensure(match shift {
        Shift::Lsl => s <= 31,
        Shift::Asr => (1..=31).contains(&s),
        _ => false,
    })?;
    Some(Compute::Saturate { unsigned, rd: reg(rd)?, bits, rm: reg(rm)?, shift, s })
}

/// "Rn (0 for BFC)"; "width is 1 to 32 - lsb".
fn field(op: u8, rd: u8, rn: u8, lsb: u8, width: u8) -> Option<Compute> {
    let op = pick(&FIELDS, op)?;
    ensure(op != Field::Bfc || rn == 0)?;
    ensure(lsb <= 31 && width >= 1 && width <= 32 - lsb)?;
    Some(Compute::Field { op, rd: reg(rd)?, rn: reg(rn)?, lsb, width })
}

fn compute(kind: u8, body: &[u8]) -> Option<Compute> {
    match (kind, body) {
        (0x01, &[op, _, rd, rn, rm, shift, n]) => operate(op, rd, rn, shifted(rm, shift, n)?),
        (0x02, &[op, _, rd, rn, a, b, c, d]) => operate(op, rd, rn, constant([a, b, c, d])?),
        (0x03, &[shift, _, rd, rn, rs]) => {
            let shift = pick(&SHIFTS[..4], shift)?;
            Some(Compute::ShiftBy { shift, rd: reg(rd)?, rn: reg(rn)?, rs: reg(rs)? })
        }
        (0x04, &[op, _, rd, rn, a, b]) => {
            let number = u16::from_le_bytes([a, b]);
            ensure(number <= 4095)?;
            Some(Compute::Wide { subtracts: one(op)?, rd: reg(rd)?, rn: reg(rn)?, number })
        }
        (0x05, &[op, _, rd, a, b]) => {
            Some(Compute::Half { top: one(op)?, rd: reg(rd)?, number: u16::from_le_bytes([a, b]) })
        }
        (0x06, &[op, _, rd, rm]) => {
            Some(Compute::Bits { op: pick(&BITS, op)?, rd: reg(rd)?, rm: reg(rm)? })
        }
        (0x07, &[op, _, rd, rn, rm, ra]) => product(op, rd, rn, rm, ra),
        (0x08, &[op, _, low, high, rn, rm]) => {
            let op = pick(&LONGS, op)?;
            Some(Compute::Long { op, low: reg(low)?, high: reg(high)?, rn: reg(rn)?, rm: reg(rm)? })
        }
        (0x09, &[op, _, rd, rn, rm]) => {
            Some(Compute::Divide { unsigned: one(op)?, rd: reg(rd)?, rn: reg(rn)?, rm: reg(rm)? })
        }
        (0x0A, &[op, _, rd, n, rm, shift, s]) => saturate(op, rd, n, rm, shift, s),
        (0x0B, &[op, _, rd, rn, lsb, width]) => field(op, rd, rn, lsb, width),
        (0x0C, &[op, _, rd, rm, rotation]) => {
            ensure(matches!(rotation, 0 | 8 | 16 | 24))?;
            Some(Compute::Extend { op: pick(&EXTENDS, op)?, rd: reg(rd)?, rm: reg(rm)?, rotation })
        }
        _ => None,
    }
}

/// "Offsets of 0D: -255 to 4095 in mode 0 (-4095 to 4095 with Rn 15), else -255 to 255".
fn single(op: u8, rt: u8, rn: u8, mode: u8, offset: i16) -> Option<Access> {
    let mode = pick(&MODES, mode)?;
    ensure(match mode {
        Mode::Offset if rn == PC => (-4095..=4095).contains(&offset),
        Mode::Offset => (-255..=4095).contains(&offset),
        _ => (-255..=255).contains(&offset),
    })?;
    Some(Access::Single { op: pick(&SINGLES, op)?, rt: reg(rt)?, rn: reg(rn)?, mode, offset })
}

fn access(kind: u8, body: &[u8]) -> Option<Access> {
    match (kind, body) {
        (0x0D, &[op, _, rt, rn, mode, a, b]) => {
            single(op, rt, rn, mode, i16::from_le_bytes([a, b]))
        }
        (0x0E, &[op, _, rt, rn, rm, n]) => {
            ensure(n <= 3)?;
            Some(Access::Indexed {
                op: pick(&SINGLES, op)?,
                rt: reg(rt)?,
                rn: reg(rn)?,
                rm: reg(rm)?,
                n,
            })
        }
        (0x0F, &[op, _, rt, rt2, rn, mode, a, b]) => {
            let (stores, mode) = (one(op)?, pick(&MODES, mode)?);
            let offset = i16::from_le_bytes([a, b]);
            ensure(offset % 4 == 0 && (-1020..=1020).contains(&offset))?;
            Some(Access::Double {
                stores,
                rt: reg(rt)?,
                rt2: reg(rt2)?,
                rn: reg(rn)?,
                mode,
                offset,
            })
        }
        (0x10, &[op, _, rn, write_back, a, b]) => {
            let (op, list) = (pick(&MULTIPLES, op)?, u16::from_le_bytes([a, b]));
            Some(Access::Multiple { op, rn: reg(rn)?, write_back: one(write_back)?, list })
        }
        _ => None,
    }
}

/// "Branch offsets are even: B with AL and BL -16777216 to 16777214, other B -1048576 to 1048574;
/// BL has condition 14."
fn branch(op: u8, own: u8, offset: i32) -> Option<Control> {
    let (links, condition) = (one(op)?, condition(own)?);
    ensure(!links || condition == AL)?;
    let reach = if condition == AL { 16_777_216 } else { 1_048_576 };
    ensure(offset % 2 == 0 && (-reach..reach).contains(&offset))?;
    Some(Control::Branch { links, condition, offset })
}

fn control(kind: u8, body: &[u8]) -> Option<Control> {
    match (kind, body) {
        (0x11, &[op, _, own, a, b, c, d]) => branch(op, own, i32::from_le_bytes([a, b, c, d])),
        (0x12, &[op, _, rm]) => Some(Control::BranchTo { links: one(op)?, rm: reg(rm)? }),
        (0x13, &[op, _, rn, offset]) => {
            ensure(rn <= 7 && offset <= 126 && offset % 2 == 0)?;
            Some(Control::CompareBranch { nonzero: one(op)?, rn, offset })
        }
        (0x14, &[_, first, count, elses]) => {
            ensure((1..=4).contains(&count))?;
            // "IT else bits 0 to 2 are for the second to fourth record, 0 past the count."
            ensure(elses < 1 << (count - 1))?;
            Some(Control::IfThen { condition: condition(first)?, count, elses })
        }
        (0x15, &[_]) => Some(Control::Nop),
        (0x16, &[op, _, rn, rm]) => {
            Some(Control::TableBranch { halves: one(op)?, rn: reg(rn)?, rm: reg(rm)? })
        }
        _ => None,
    }
}

/// Order 1: "2 to 65,534 machine bytes, even (body: that number, 2 bytes)".
fn filler(body: &[u8]) -> Option<Action> {
    let bytes = u16::from_le_bytes(body.try_into().ok()?);
    ensure(bytes >= 2 && bytes % 2 == 0)?;
    Some(Action::Filler { bytes })
}
