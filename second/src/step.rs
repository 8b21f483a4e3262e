//! "A step takes the machine and a record and hands back the next machine."

use crate::access::{access, table_entry};
use crate::compute::compute;
use crate::machine::{Machine, LR, PC};
use crate::memory::Memory;
use crate::number::{Number, DONE, RESTRICTED, UNFIT};
use crate::read::read_one;
use crate::record::{Action, Control, Record};
use crate::rules::refusal;
use crate::waiting::{Condition, Waiting, AL};
use crate::word;

/// The number 0 to 7. Machine and memory change only with 0: "A refused step writes nothing."
pub fn step(machine: &mut Machine, record: &[u8], memory: &mut [u8], base: u32) -> Number {
    match admitted(machine, record, memory, base) {
        Ok((record, mut memory)) => perform(machine, &record, &mut memory),
        Err(number) => number,
    }
}

/// Numbers 1 to 4, which "apply even when the condition fails", the lowest first.
fn admitted<'a>(
    machine: &Machine,
    record: &[u8],
    memory: &'a mut [u8],
    base: u32,
) -> Result<(Record, Memory<'a>), Number> {
    if !machine.good() {
        return Err(UNFIT);
    }
    let memory = Memory::lent(memory, base)?;
    let record = read_one(record)?;
    match refusal(&record, machine.waiting.len()) {
        Some(number) => Err(number),
        None => Ok((record, memory)),
    }
}

/// A step that numbers 1 to 4 do not refuse.
pub fn perform(machine: &mut Machine, record: &Record, memory: &mut Memory) -> Number {
    let now = *machine;
    match advance(&now, machine, record, memory) {
        Ok(()) => DONE,
        Err(number) => {
            *machine = now;
            number
        }
    }
}

/// Operands are those of the machine `now`; `next` begins as the same. "A failed condition changes
/// only R15 (next record). Either way the waiting condition is dropped".
fn advance(
    now: &Machine,
    next: &mut Machine,
    record: &Record,
    memory: &mut Memory,
) -> Result<(), Number> {
    next.put(PC, next_address(now, record))?;
    next.waiting = now.waiting.rest();
    if now.passes(ruling(now, record)) {
        act(now, next, record, memory)?;
    }
    Ok(())
}

fn next_address(now: &Machine, record: &Record) -> u32 {
    now.address().wrapping_add(record.machine_length())
}

/// "If a condition is waiting, the first one rules; kind 11 outside a block uses its own."
fn ruling(now: &Machine, record: &Record) -> Condition {
    match (now.waiting.first(), record.action) {
        (Some(first), _) => first,
        (None, Action::Control(Control::Branch { condition, .. })) => condition,
        _ => AL,
    }
}

fn act(
    now: &Machine,
    next: &mut Machine,
    record: &Record,
    memory: &mut Memory,
) -> Result<(), Number> {
    match &record.action {
        Action::Compute(action) => compute(now, next, action, record.s),
        Action::Access(action) => access(now, next, action, memory),
        Action::Control(action) => control(now, next, record, action, memory),
        // Refused before, by number 3.
        Action::Filler { .. } => Err(RESTRICTED),
    }
}

fn control(
    now: &Machine,
    next: &mut Machine,
    record: &Record,
    action: &Control,
    memory: &Memory,
) -> Result<(), Number> {
    // "BL, BLX set R14 to the next address with bit 0 set"
    let back = word::link(next_address(now, record));
    match *action {
        Control::Branch { links, .. } => {
            if links {
                next.put(LR, back)?;
            }
            go_direct(now, next, record)
        }
        // "BLX reads Rm first."
        Control::BranchTo { links, rm } => {
            if links {
                next.put(LR, back)?;
            }
            next.go(now.operand(rm))
        }
        Control::CompareBranch { nonzero, rn, .. } if (now.get(rn) != 0) == nonzero => {
            go_direct(now, next, record)
        }
        // "IT sets the list."
        Control::IfThen { condition, count, elses } => {
            next.waiting = Waiting::block(condition, count, elses);
            Ok(())
        }
        // "The branch goes to address + 4 plus twice the entry", modulo 2^32 (S11).
        Control::TableBranch { halves, rn, rm } => {
            let entry = table_entry(now, memory, halves, rn, rm)?;
            next.put(PC, now.operand(PC).wrapping_add(2 * entry))
        }
        Control::CompareBranch { .. } | Control::Nop => Ok(()),
    }
}

fn go_direct(now: &Machine, next: &mut Machine, record: &Record) -> Result<(), Number> {
    match record.direct_target(now.address()) {
        Some(target) => next.put(PC, target),
        None => Ok(()),
    }
}
