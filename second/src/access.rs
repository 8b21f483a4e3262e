//! Kinds 0D to 10, and the entry that kind 16 reads. The order of the tests is that of their
//! numbers: alignment (5), memory (6), then what goes to registers (7). Stores come last, for "a
//! refused step writes nothing".

use crate::machine::{Machine, Register, PC};
use crate::memory::Memory;
use crate::number::{Number, UNALIGNED};
use crate::record::*;
use crate::word;

pub fn access(
    now: &Machine,
    next: &mut Machine,
    action: &Access,
    memory: &mut Memory,
) -> Result<(), Number> {
    match *action {
        Access::Single { op, rt, rn, mode, offset } => {
            let (address, new_base) = places(now.base(rn), mode, offset);
            let at = find_single(memory, op, rt, address)?;
            write_base(next, mode, rn, new_base)?;
            single(now, next, memory, op, rt, at)
        }
        Access::Indexed { op, rt, rn, rm, n } => {
            let address = now.get(rn).wrapping_add(now.get(rm) << n);
            let at = find_single(memory, op, rt, address)?;
            single(now, next, memory, op, rt, at)
        }
        Access::Double { stores, rt, rt2, rn, mode, offset } => {
            let (address, new_base) = places(now.base(rn), mode, offset);
            let at = find_words(memory, address, 2)?;
            write_base(next, mode, rn, new_base)?;
            if stores {
                memory.store(at, 4, now.get(rt));
                memory.store(at + 4, 4, now.get(rt2));
                return Ok(());
            }
            next.put(rt, memory.word(at))?;
            next.put(rt2, memory.word(at + 4))
        }
        Access::Multiple { op, rn, write_back, list } => {
            multiple(now, next, memory, op, rn, write_back, list)
        }
    }
}

/// The address accessed and the base as it would be written back.
fn places(base: u32, mode: Mode, offset: i16) -> (u32, u32) {
    let moved = word::moved(base, i32::from(offset));
    match mode {
        Mode::Offset | Mode::PreIndexed => (moved, moved),
        Mode::PostIndexed => (base, moved),
    }
}

fn write_base(next: &mut Machine, mode: Mode, rn: Register, value: u32) -> Result<(), Number> {
    match mode {
        Mode::Offset => Ok(()),
        Mode::PreIndexed | Mode::PostIndexed => next.put(rn, value),
    }
}

fn width(op: Single) -> usize {
    match op {
        Single::Ldr | Single::Str => 4,
        Single::Ldrh | Single::Ldrsh | Single::Strh => 2,
        Single::Ldrb | Single::Ldrsb | Single::Strb => 1,
    }
}

/// "LDR, LDRH, LDRSH, STR, STRH may be unaligned, but LDR to R15 wants a multiple of 4".
fn find_single(memory: &Memory, op: Single, rt: Register, address: u32) -> Result<usize, Number> {
    if rt == PC && address % 4 != 0 {
        return Err(UNALIGNED);
    }
    memory.find(address, width(op))
}

/// ".. wants a multiple of 4, as do kinds 0F and 10."
fn find_words(memory: &Memory, address: u32, words: u32) -> Result<usize, Number> {
    if address % 4 != 0 {
        return Err(UNALIGNED);
    }
    memory.find(address, 4 * words as usize)
}

fn single(
    now: &Machine,
    next: &mut Machine,
    memory: &mut Memory,
    op: Single,
    rt: Register,
    at: usize,
) -> Result<(), Number> {
    let value = match op {
        Single::Ldr => memory.word(at),
        Single::Ldrb => u32::from(memory.byte(at)),
        Single::Ldrh => u32::from(memory.half(at)),
        Single::Ldrsb => word::sign_extend_byte(u32::from(memory.byte(at))),
        Single::Ldrsh => word::sign_extend_half(u32::from(memory.half(at))),
        Single::Str | Single::Strb | Single::Strh => {
            memory.store(at, width(op), now.get(rt));
            return Ok(());
        }
    };
    next.load(rt, value)
}

/// "Multiple access: lowest register at lowest address." A base written back moves by 4 a register
/// (R4).
fn multiple(
    now: &Machine,
    next: &mut Machine,
    memory: &mut Memory,
    op: Multiple,
    rn: Register,
    write_back: bool,
    list: u16,
) -> Result<(), Number> {
    let (base, words) = (now.get(rn), word::count(list));
    let (address, new_base) = if op.ascends() {
        (base, base.wrapping_add(4 * words))
    } else {
        (base.wrapping_sub(4 * words), base.wrapping_sub(4 * words))
    };
    let mut at = find_words(memory, address, words)?;
    if write_back {
        next.put(rn, new_base)?;
    }
    for register in (0..16).filter(|&register| word::holds(list, register)) {
        if op.loads() {
            next.load(register, memory.word(at))?;
        } else {
            memory.store(at, 4, now.get(register));
        }
        at += 4;
    }
    Ok(())
}

/// The entry that kind 16 reads: byte Rm of the table at Rn (TBB), or half Rm (TBH). "TBH may read its
/// halfword unaligned (so the manual), and Rn 15 is read as address + 4", bit 1 not cleared (S8).
pub fn table_entry(
    now: &Machine,
    memory: &Memory,
    halves: bool,
    rn: Register,
    rm: Register,
) -> Result<u32, Number> {
    let table = now.operand(rn);
    if halves {
        let at = memory.find(table.wrapping_add(now.get(rm) << 1), 2)?;
        Ok(u32::from(memory.half(at)))
    } else {
        let at = memory.find(table.wrapping_add(now.get(rm)), 1)?;
        Ok(u32::from(memory.byte(at)))
    }
}
