//! What the tests share. Each test file uses some of it.
#![allow(dead_code)]

pub mod places;
pub mod tables;

use second::machine::Machine;
use second::waiting::Waiting;

pub const BASE: u32 = 0x2000_0000;

/// A fresh machine at 0x1000 with some registers set.
pub fn machine(registers: &[(usize, u32)]) -> Machine {
    let mut machine = Machine::FRESH;
    machine.registers[15] = 0x1000;
    for &(register, value) in registers {
        machine.registers[register] = value;
    }
    machine
}

pub fn with_flags(registers: &[(usize, u32)], nzcv: [bool; 4]) -> Machine {
    let mut machine = machine(registers);
    [machine.n, machine.z, machine.c, machine.v] = nzcv;
    machine
}

pub fn waiting(conditions: &[u8]) -> Waiting {
    Waiting::new(conditions).unwrap()
}

pub fn nzcvq(machine: &Machine) -> String {
    [machine.n, machine.z, machine.c, machine.v, machine.q]
        .map(|flag| if flag { '1' } else { '0' })
        .iter()
        .collect()
}

/// A step that must be done, without memory.
pub fn stepped(mut machine: Machine, record: &[u8]) -> Machine {
    assert_eq!(second::step::step(&mut machine, record, &mut [], BASE), 0, "{record:02X?}");
    machine
}

/// The number of a step with 64 zero bytes of memory at BASE; a refusal must write nothing.
pub fn number(mut machine: Machine, record: &[u8]) -> u32 {
    let before = machine;
    let mut memory = [0; 64];
    let number = second::step::step(&mut machine, record, &mut memory, BASE);
    if number != 0 {
        assert_eq!(machine, before);
        assert_eq!(memory, [0; 64]);
    }
    number
}

pub const NOP: [u8; 2] = [0x15, 0];

pub fn it(condition: u8, count: u8, elses: u8) -> Vec<u8> {
    vec![0x14, 0, condition, count, elses]
}

pub fn b(condition: u8, offset: i32) -> Vec<u8> {
    [&[0x11, 0, 0, condition][..], &offset.to_le_bytes()].concat()
}

pub fn bl(offset: i32) -> Vec<u8> {
    [&[0x11, 1, 2, 14][..], &offset.to_le_bytes()].concat()
}

/// MOV Rd, constant in 2 machine bytes.
pub fn mov(rd: u8, constant: u32) -> Vec<u8> {
    [&[0x02, 10, 0, rd, 0][..], &constant.to_le_bytes()].concat()
}

/// Kind 0D in 2 machine bytes.
pub fn single(op: u8, rt: u8, rn: u8, mode: u8, offset: i16) -> Vec<u8> {
    [&[0x0D, op, 0, rt, rn, mode][..], &offset.to_le_bytes()].concat()
}

/// Kind 0F in 4 machine bytes.
pub fn double(op: u8, rt: u8, rt2: u8, rn: u8, mode: u8, offset: i16) -> Vec<u8> {
    [&[0x0F, op, 2, rt, rt2, rn, mode][..], &offset.to_le_bytes()].concat()
}

/// Kind 10 in 2 machine bytes.
pub fn multiple(op: u8, rn: u8, write_back: u8, list: u16) -> Vec<u8> {
    [&[0x10, op, 0, rn, write_back][..], &list.to_le_bytes()].concat()
}

/// BX.
pub fn bx(rm: u8) -> Vec<u8> {
    vec![0x12, 0, 0, rm]
}

/// Kind 16: TBB for op 0, TBH for op 1.
pub fn table(op: u8, rn: u8, rm: u8) -> Vec<u8> {
    vec![0x16, op, 2, rn, rm]
}

/// Kind 17.
pub fn filler(bytes: u16) -> Vec<u8> {
    [&[0x17][..], &bytes.to_le_bytes()].concat()
}

/// Order 1's list of what a filler may follow outside a block, by the bytes of the record before it.
pub fn leaves_room(record: &[u8]) -> bool {
    match record[0] {
        0x11 => record[1] == 0 && record[3] == 14,
        0x12 => record[1] == 0,
        0x16 | 0x17 => true,
        _ => false,
    }
}

/// A small generator for test data (xorshift).
pub struct Random(pub u64);

impl Random {
    pub fn next(&mut self) -> u64 {
        self.0 ^= self.0 << 13;
        self.0 ^= self.0 >> 7;
        self.0 ^= self.0 << 17;
        self.0 >> 11
    }

    pub fn below(&mut self, bound: u64) -> u64 {
        self.next() % bound
    }

    pub fn pick<T: Copy>(&mut self, from: &[T]) -> T {
        from[self.below(from.len() as u64) as usize]
    }
}

/// Bytes of a record of any kind, mostly with fields as the papers want them.
pub fn some_record(random: &mut Random) -> Vec<u8> {
    const BODY: [usize; 23] = [7, 8, 5, 6, 5, 4, 6, 6, 5, 7, 6, 5, 7, 6, 8, 6, 7, 3, 4, 4, 1, 4, 2];
    let kind = 1 + random.below(23) as u8;
    let length = BODY[usize::from(kind) - 1];
    let mut record = vec![kind];
    for _ in 0..length {
        let byte = match random.below(12) {
            0 => random.next() as u8,
            1..=5 => random.below(16) as u8,
            6..=9 => random.below(4) as u8,
            _ => random.pick(&[13, 15, 14, 8, 7, 32, 31]),
        };
        record.push(byte);
    }
    let form = if matches!(kind, 0x14 | 0x15 | 0x17) { 1 } else { 2 };
    record[form] = random.pick(&[0, 0, 0, 2, 2, 2, 1, 3]);
    match kind {
        0x16 if random.below(8) != 0 => (record[1], record[2]) = (record[1] & 1, 2),
        0x17 if random.below(8) != 0 => record[1] = random.pick(&[2, 2, 4, 6, 254]),
        0x11 if random.below(8) != 0 => {
            record[4] &= !1;
            record[5..].copy_from_slice(&random.pick(&[[0; 3], [255; 3]]));
        }
        0x0D | 0x0F if random.below(8) != 0 => record[length] = random.pick(&[0, 0, 255]),
        0x13 | 0x14 if random.below(4) != 0 => record[4] &= 6,
        _ => {}
    }
    record
}

/// A machine, mostly good, with registers near memory or at edges.
pub fn some_machine(random: &mut Random) -> Machine {
    let mut machine = Machine::FRESH;
    for register in &mut machine.registers {
        *register = match random.below(6) {
            0 => random.next() as u32,
            1 => random.below(70) as u32,
            2 => random.pick(&[0x7FFF_FFFF, 0x8000_0000, 0xFFFF_FFFF]),
            _ => BASE + random.below(80) as u32 - 8,
        };
    }
    machine.registers[13] &= if random.below(16) == 0 { !0 } else { !3 };
    machine.registers[15] &= if random.below(16) == 0 { !0 } else { !1 };
    for flag in [&mut machine.n, &mut machine.z, &mut machine.c, &mut machine.v, &mut machine.q] {
        *flag = random.below(2) == 1;
    }
    let first = random.below(16) as u8;
    let mut conditions = vec![first; random.pick(&[0, 0, 0, 0, 1, 1, 2, 3, 4])];
    for condition in conditions.iter_mut().skip(1) {
        *condition ^= random.pick(&[0, 1, 0, 1, 0, 1, 2]);
    }
    machine.waiting = waiting(&conditions);
    machine
}
