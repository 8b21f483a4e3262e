//! Steps that take their next address from a register or from memory.

use super::{Author, PC, SCRATCH, SP, TABLE};
use crate::runs::writer::{Lack, Target};

impl Author<'_> {
    /// By one of all the ways there are, at times as the last record of a block.
    pub fn jump(&mut self, target: Target) {
        let way = self.prng.below(11);
        let (entry, here) = (self.writer.entry(target), self.writer.label());
        let (offset, list) = (4 * entry as u8, self.prng.below(64) as u8);
        match way {
            0..=2 => self.address(target, None),
            3 => self.writer.push(&[0x0D, 0, 0, SCRATCH, TABLE, 0, offset, 0]),
            4 => self.writer.push(&[0x02, 10, 0, SCRATCH, 0, entry as u8, 0, 0, 0]),
            5 => {
                let below = 4 * list.count_ones() as u8;
                self.writer.push(&[0x04, 0, 2, SCRATCH, TABLE, offset, 0]);
                self.writer.push(&[0x04, 1, 2, SCRATCH, SCRATCH, below, 0]);
            }
            6 => self.writer.push(&[0x04, 0, 2, SCRATCH, TABLE, offset + 4, 0]),
            7 => self.address(target, Some(here)),
            8 => {
                self.address(target, None);
                self.writer.push(&[0x10, 3, 0, SP, 1, 0, 0x10]);
            }
            _ => (),
        }
        if self.prng.once_in(4) {
            self.block_before();
        }
        self.writer.put_here(here);
        let form = self.prng.pick(&[0, 2]);
        match way {
            0 | 3 => self.writer.push(&[0x12, 0, 0, SCRATCH]),
            1 => self.writer.push(&[0x12, 1, 0, SCRATCH]),
            2 => self.writer.push(&[0x01, 10, form, PC, 0, SCRATCH, 0, 0]),
            4 => self.writer.push(&[0x0E, 0, form, PC, TABLE, SCRATCH, 2]),
            5 => self.writer.push(&[0x10, 0, form, SCRATCH, 0, list, 0x80]),
            6 => self.writer.push(&[0x10, 1, form, SCRATCH, 0, list, 0x80]),
            7 => self.writer.push(&[0x01, 0, form, PC, PC, SCRATCH, 0, 0]),
            8 => self.writer.push(&[0x10, 0, form, SP, 1, 0, 0x80]),
            9 if self.plan.literal => {
                self.writer.push_lacking(&[0x0D, 0, form, PC, PC, 0, 0, 0], Lack::Literal(entry));
            }
            _ => self.writer.push(&[0x0D, 0, form, PC, TABLE, 0, offset, 0]),
        }
    }

    /// The IT record and all of the block but its last.
    fn block_before(&mut self) {
        let count = 1 + self.prng.below(4) as u8;
        self.it(count);
        for waiting in (2..=count).rev() {
            self.simple(waiting.into());
        }
    }
}
