//! "Memory is one lent buffer of 0 to 1,048,576 bytes with a base address, little-endian."

use crate::number::{Number, OUTSIDE, UNFIT};

const LIMIT: usize = 1_048_576;

pub struct Memory<'a> {
    bytes: &'a mut [u8],
    base: u32,
}

impl<'a> Memory<'a> {
    /// "memory over its limit or past 2^32": its end is not taken modulo 2^32 and may be 2^32 itself.
    pub fn lent(bytes: &'a mut [u8], base: u32) -> Result<Memory<'a>, Number> {
        if bytes.len() > LIMIT || u64::from(base) + bytes.len() as u64 > 1 << 32 {
            return Err(UNFIT);
        }
        Ok(Memory { bytes, base })
    }

    /// Where in the buffer an access of some bytes begins; "some accessed byte is not in memory" if
    /// it does not. An access that passes 2^32 also passes the end of memory (R21).
    pub fn find(&self, address: u32, bytes: usize) -> Result<usize, Number> {
        let start = address.checked_sub(self.base).ok_or(OUTSIDE)? as usize;
        match self.bytes.len().checked_sub(start) {
            Some(left) if bytes <= left => Ok(start),
            _ => Err(OUTSIDE),
        }
    }

    pub fn byte(&self, at: usize) -> u8 {
        self.bytes[at]
    }

    pub fn half(&self, at: usize) -> u16 {
        u16::from_le_bytes([self.bytes[at], self.bytes[at + 1]])
    }

    pub fn word(&self, at: usize) -> u32 {
        let b = &self.bytes[at..at + 4];
        u32::from_le_bytes([b[0], b[1], b[2], b[3]])
    }

    /// The low 1, 2 or 4 bytes of a word.
    pub fn store(&mut self, at: usize, bytes: usize, value: u32) {
        self.bytes[at..at + bytes].copy_from_slice(&value.to_le_bytes()[..bytes]);
    }
}
