//! Loops that end.

use super::{Author, AL, COUNTERS};
use crate::runs::writer::Label;

const NE: u8 = 1;

impl Author<'_> {
    /// A register counts down to 0, or up from 0, and its branch goes back until then.
    pub fn counted(&mut self, depth: u32) {
        let counter = COUNTERS[self.counting];
        let times = self.prng.pick(&[1, 2, 2, 3, 3, 4, 5, 6, 9, 20]);
        let up = self.prng.once_in(3);
        self.counting += 1;
        self.writer.push(&[0x02, 10, 0, counter, 0, if up { 0 } else { times }, 0, 0, 0]);
        let again = self.writer.label();
        self.body(depth);
        if up {
            self.writer.push(&[0x02, 0, 0, counter, counter, 1, 0, 0, 0]);
            self.writer.push(&[0x02, 12, 1, 0, counter, times, 0, 0, 0]);
        } else {
            self.writer.push(&[0x02, 2, 1, counter, counter, 1, 0, 0, 0]);
        }
        self.go_on(counter, up, again);
        self.counting -= 1;
    }

    /// Back while the counter is not yet where it goes, which is also what the flags say.
    fn go_on(&mut self, counter: u8, up: bool, again: Label) {
        let form = self.prng.pick(&[0, 2]);
        match self.prng.below(4) {
            0 if !up => {
                let out = self.writer.label();
                self.branch(&[0x13, 0, 0, counter, 0], out);
                self.branch(&[0x11, 0, form, AL, 0, 0, 0, 0], again);
                self.writer.put_here(out);
            }
            1 => {
                self.writer.push(&[0x14, 0, NE, 1, 0]);
                self.branch(&[0x11, 0, form, AL, 0, 0, 0, 0], again);
            }
            _ => self.branch(&[0x11, 0, form, NE, 0, 0, 0, 0], again),
        }
    }
}
