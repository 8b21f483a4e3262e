//! Every value of every byte of a machine's image past its registers, all else in it being good.

use crate::cover::Cover;
use crate::image::{self, Image, BYTES, CONDITIONS, COUNT, FLAGS};
use std::fmt;

const SP: usize = 13;
const PC: usize = 15;
const AL: u8 = 14;
const MOST: u8 = 4;
const UNFIT: u32 = 1;

pub struct ImageBytes {
    flags: Cover,
    counts: Cover,
    waiting: Cover,
    past: Cover,
    /// Of a list that is 15 alone.
    fifteen: u64,
}

impl ImageBytes {
    pub fn new() -> ImageBytes {
        ImageBytes {
            flags: Cover::new("values of flag bytes", [COUNT - FLAGS, 256], |_, _| true),
            counts: Cover::new("of the count of waiting conditions", [1, 256], |_, _| true),
            waiting: Cover::new("of waiting conditions", [BYTES - CONDITIONS, 256], |_, _| true),
            past: Cover::new("of bytes past the count", [BYTES - CONDITIONS, 256], |_, _| true),
            fifteen: 0,
        }
    }

    /// With the number that both sides gave; with more than one fault nothing is seen.
    pub fn see(&mut self, bytes: &[u8], number: u32) {
        let faults = match faults(bytes) {
            Some(faults) => faults,
            None => return,
        };
        match faults[..] {
            [] => (FLAGS..BYTES).for_each(|at| self.byte(bytes, at)),
            [at] if number == UNFIT => self.byte(bytes, at),
            _ => (),
        }
        if faults == [CONDITIONS] && bytes[COUNT..] == [1, 15, 0, 0, 0] && number == UNFIT {
            self.fifteen += 1;
        }
    }

    fn byte(&mut self, bytes: &[u8], at: usize) {
        let value = usize::from(bytes[at]);
        match at {
            COUNT => self.counts.see(0, value),
            _ if at < COUNT => self.flags.see(at - FLAGS, value),
            _ if at - CONDITIONS < usize::from(bytes[COUNT]) => {
                self.waiting.see(at - CONDITIONS, value);
            }
            _ => self.past.see(at - CONDITIONS, value),
        }
    }

    pub fn gaps(&self) -> Vec<String> {
        let covers = [&self.flags, &self.counts, &self.waiting, &self.past];
        let fifteen = (self.fifteen == 0).then(|| "never 15 alone waiting".to_string());
        covers.into_iter().filter_map(Cover::gap).chain(fifteen).collect()
    }
}

/// Where bytes of an image are not as they may be; None where the rest of it is not good either.
fn faults(bytes: &[u8]) -> Option<Vec<usize>> {
    let whole = bytes.len() == BYTES
        && image::register(bytes, SP) % 4 == 0
        && image::register(bytes, PC) % 2 == 0;
    whole.then(|| (FLAGS..BYTES).filter(|&at| is_fault(bytes, at)).collect())
}

fn is_fault(bytes: &[u8], at: usize) -> bool {
    let (value, first) = (bytes[at], bytes[CONDITIONS]);
    let count = if bytes[COUNT] <= MOST { usize::from(bytes[COUNT]) } else { 0 };
    match at {
        COUNT => value > MOST,
        _ if at < COUNT => value > 1,
        _ if at - CONDITIONS < count => value > AL || value | 1 != first | 1,
        _ => value != 0,
    }
}

/// Every value of each such byte, alone waiting or after conditions that are the same.
pub fn sweep(image: Image, mut put: impl FnMut(Vec<u8>) -> crate::Outcome) -> crate::Outcome {
    let places = (FLAGS..BYTES).flat_map(|at| (0..=255).map(move |value| (at, value)));
    for (at, value) in places {
        let counts = match at {
            COUNT => 0..=0,
            _ if at < COUNT => 0..=4,
            _ => 0..=(at - CONDITIONS + 1) as u8,
        };
        for count in counts {
            let mut bytes = Image { count, conditions: [0; 4], ..image }.bytes();
            bytes[at] = value;
            put(bytes)?;
        }
    }
    Ok(())
}

impl fmt::Display for ImageBytes {
    fn fmt(&self, f: &mut fmt::Formatter<'_>) -> fmt::Result {
        writeln!(f, "{}\n{}\n{}\n{}", self.flags, self.counts, self.waiting, self.past)?;
        writeln!(f, "15 alone waiting: {}", self.fifteen)
    }
}
