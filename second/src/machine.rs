//! The machine: registers, flags and waiting conditions.

use crate::number::{Number, BAD_VALUE};
use crate::waiting::{Condition, Waiting};
use crate::word;

pub type Register = u8;

pub const SP: Register = 13;
pub const LR: Register = 14;
pub const PC: Register = 15;

#[derive(Clone, Copy, PartialEq, Eq, Debug)]
pub struct Machine {
    pub registers: [u32; 16],
    pub n: bool,
    pub z: bool,
    pub c: bool,
    pub v: bool,
    pub q: bool,
    pub waiting: Waiting,
}

impl Machine {
    /// "fresh is all zero with nothing waiting".
    pub const FRESH: Machine = Machine {
        registers: [0; 16],
        n: false,
        z: false,
        c: false,
        v: false,
        q: false,
        waiting: Waiting::NONE,
    };

    /// "A machine is good when R15 is even, R13 is a multiple of 4, and each waiting condition .."
    pub fn good(&self) -> bool {
        self.address() % 2 == 0 && self.get(SP) % 4 == 0 && self.waiting.good()
    }

    pub fn get(&self, register: Register) -> u32 {
        self.registers[usize::from(register)]
    }

    /// "R15 is the address of the record to be stepped."
    pub fn address(&self) -> u32 {
        self.get(PC)
    }

    /// "R15 read as an operand is the address plus 4".
    pub fn operand(&self, register: Register) -> u32 {
        if register == PC {
            self.address().wrapping_add(4)
        } else {
            self.get(register)
        }
    }

    /// "as base of a load or of kind 04 it is that with bit 1 cleared".
    pub fn base(&self, register: Register) -> u32 {
        if register == PC {
            word::base(self.operand(PC))
        } else {
            self.get(register)
        }
    }

    /// "EQ NE CS CC MI PL VS VC HI LS GE LT GT LE AL".
    pub fn passes(&self, condition: Condition) -> bool {
        let even = match condition >> 1 {
            0 => self.z,
            1 => self.c,
            2 => self.n,
            3 => self.v,
            4 => self.c && !self.z,
            5 => self.n == self.v,
            6 => !self.z && self.n == self.v,
            _ => return true,
        };
        even != (condition & 1 == 1)
    }

    pub fn set_nz(&mut self, value: u32) {
        self.n = word::negative(value);
        self.z = value == 0;
    }

    /// "Every value put in R15 has bit 0 cleared; ADD and MOV never refuse for it." A "value for R13
    /// [that] is not a multiple of 4" is refused, a base written back too (R3).
    pub fn put(&mut self, register: Register, value: u32) -> Result<(), Number> {
        if register == SP && value % 4 != 0 {
            return Err(BAD_VALUE);
        }
        let value = if register == PC { word::even(value) } else { value };
        self.registers[usize::from(register)] = value;
        Ok(())
    }

    /// "value for R15 by LDR, LDM, BX or BLX has bit 0 clear".
    pub fn go(&mut self, value: u32) -> Result<(), Number> {
        if value % 2 == 0 {
            return Err(BAD_VALUE);
        }
        self.put(PC, value)
    }

    /// A word loaded into a register, R15 among them.
    pub fn load(&mut self, register: Register, value: u32) -> Result<(), Number> {
        if register == PC {
            self.go(value)
        } else {
            self.put(register, value)
        }
    }
}
