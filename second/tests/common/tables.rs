//! What the tests of orders 1 and 6 of paper 02 share: a check, a run and a step in few words, and the records that may stand before a filler.

use super::*;
use second::check::check;
use second::machine::Machine;
use second::run::Ran;
use second::step::step;
use second::waiting::Waiting;

pub const TBB: u8 = 0;
pub const TBH: u8 = 1;
/// The code of these tests lies here.
pub const CODE: u32 = 0x1000;
/// Conditions of blocks: one that fails with all flags clear, one that passes, and AL.
pub const CONDITIONS: [u8; 3] = [0, 1, 14];

pub fn join(records: &[&[u8]]) -> Vec<u8> {
    records.concat()
}

pub fn checked(records: &[&[u8]]) -> (u32, u32) {
    check(&join(records), CODE)
}

pub fn ran(number: u32, place: u32, count: u32) -> Ran {
    Ran { number, place, count }
}

/// A step with lent memory. A refusal must change nothing, and kind 16 never writes memory.
pub fn stepped_in(now: Machine, record: &[u8], memory: &[u8], base: u32) -> Result<Machine, u32> {
    let (mut next, mut bytes) = (now, memory.to_vec());
    let number = step(&mut next, record, &mut bytes, base);
    assert_eq!(bytes, memory, "{record:02X?}");
    if number == 0 {
        return Ok(next);
    }
    assert_eq!(next, now, "{record:02X?}");
    Err(number)
}

/// The same machine at another address with nothing waiting.
pub fn at(now: Machine, address: u32) -> Machine {
    let mut next = now;
    next.registers[15] = address;
    next.waiting = Waiting::NONE;
    next
}

pub fn waits(now: Machine, conditions: &[u8]) -> Machine {
    let mut now = now;
    now.waiting = waiting(conditions);
    now
}

/// Each sort of record, with its name and whether a filler may stand behind it outside a block. B and
/// BL go to themselves.
pub fn neighbours() -> Vec<(&'static str, Vec<u8>, bool)> {
    vec![
        ("B AL of 2", b(14, -4), true),
        ("B AL of 4", vec![0x11, 0, 2, 14, 0xFC, 0xFF, 0xFF, 0xFF], true),
        ("BX R14", bx(14), true),
        ("BX R0", bx(0), true),
        ("BX R15", bx(15), true),
        ("TBB", table(TBB, 0, 1), true),
        ("TBB R15", table(TBB, 15, 1), true),
        ("TBH", table(TBH, 0, 1), true),
        ("B EQ", b(0, -4), false),
        ("B LE of 4", vec![0x11, 0, 2, 13, 0xFC, 0xFF, 0xFF, 0xFF], false),
        ("BL", bl(-4), false),
        ("BLX R14", vec![0x12, 1, 0, 14], false),
        ("CBZ", vec![0x13, 0, 0, 0, 0], false),
        ("CBNZ", vec![0x13, 1, 0, 0, 0], false),
        ("MOV R15", vec![0x01, 10, 0, 15, 0, 14, 0, 0], false),
        ("ADD R15", vec![0x01, 0, 0, 15, 15, 1, 0, 0], false),
        ("LDR R15", single(0, 15, 0, 0, 0), false),
        ("LDR R15 post-indexed", single(0, 15, 13, 2, 4), false),
        ("LDR R15 indexed", vec![0x0E, 0, 0, 15, 0, 1, 2], false),
        ("LDMIA with R15", multiple(0, 13, 1, 0x8000), false),
        ("LDMDB with R15", multiple(1, 0, 0, 0x8002), false),
        ("NOP", NOP.to_vec(), false),
        ("NOP of 4", vec![0x15, 2], false),
        ("MOV", mov(0, 1), false),
        ("ADDS", vec![0x01, 0, 1, 0, 1, 2, 0, 0], false),
        ("MULS", vec![0x07, 0, 1, 1, 2, 1, 0], false),
        ("LDR", single(0, 0, 15, 0, 0), false),
        ("STR", single(5, 0, 13, 1, -4), false),
        ("STMDB", multiple(3, 13, 1, 0x4000), false),
        ("IT", it(0, 1, 0), false),
        ("IT AL of four", it(14, 4, 0), false),
    ]
}
