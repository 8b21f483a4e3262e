//! Calls that return.

use super::{Author, AL, LR, PC, SCRATCH, SP};

impl Author<'_> {
    /// A function and a call of it, which the way round the function follows.
    pub fn call(&mut self, depth: u32) {
        let (function, over) = (self.writer.label(), self.writer.label());
        if self.prng.once_in(3) {
            let target = self.target(function);
            self.address(target, None);
            self.writer.push(&[0x12, 1, 0, SCRATCH]);
        } else {
            self.branch(&[0x11, 1, 2, AL, 0, 0, 0, 0], function);
        }
        if self.prng.once_in(2) {
            self.simple(0);
        }
        let form = self.prng.pick(&[0, 2]);
        self.branch(&[0x11, 0, form, AL, 0, 0, 0, 0], over);
        self.writer.put_here(function);
        self.function(depth);
        self.writer.put_here(over);
    }

    /// Saves R14 and returns by what was saved, or leaves it as it is.
    fn function(&mut self, depth: u32) {
        let list = self.prng.below(64) as u8;
        match self.prng.below(4) {
            0 => {
                self.writer.push(&[0x10, 3, 0, SP, 1, list, 0x40]);
                self.body(depth);
                self.writer.push(&[0x10, 0, self.prng.pick(&[0, 2]), SP, 1, list, 0x80]);
            }
            1 => {
                self.writer.push(&[0x0D, 5, 2, LR, SP, 1, 0xFC, 0xFF]);
                self.body(depth);
                self.writer.push(&[0x0D, 0, 2, PC, SP, 2, 4, 0]);
            }
            returned => {
                self.linked = true;
                self.body(depth);
                self.linked = false;
                match returned {
                    2 => self.writer.push(&[0x12, 0, 0, LR]),
                    _ => self.writer.push(&[0x01, 10, 0, PC, 0, LR, 0, 0]),
                }
            }
        }
    }
}
