//! One string of bytes, put to the three functions of both sides.

use super::tally::Tally;
use crate::{hex, proved, Outcome};
use second::read::{read, read_one};
use second::record::Action;

const WAITING: [u32; 5] = [0, 1, 2, 3, 4];
const ADDRESSES: [u32; 6] = [0, 2, 0x1000, 0x7FFF_FFFE, 0xFFFF_FFFC, 0xFFFF_FFFE];
/// What stands around a record in a listing: a whole record and the start of one before it, and
/// after it bytes small enough to complete a record that was cut off.
const BEFORE: [u8; 3] = [0x15, 2, 1];
const AFTER: [u8; 8] = [1, 0, 0, 1, 2, 0, 0, 0];

pub struct Comparison {
    tally: Tally,
    listing: Vec<u8>,
}

impl Comparison {
    pub fn new(stock: &[Vec<u8>]) -> Comparison {
        Comparison { tally: Tally::new(stock), listing: Vec::new() }
    }

    pub fn tally(&self) -> &Tally {
        &self.tally
    }

    pub fn bytes(&mut self, bytes: &[u8]) -> Outcome {
        self.tally.string();
        self.judge(bytes)?;
        self.way(bytes)?;
        for place in [0, bytes.len(), bytes.len() + 1] {
            self.measure(bytes, place)?;
        }
        self.measure_within(bytes)
    }

    fn judge(&mut self, bytes: &[u8]) -> Outcome {
        for waiting in WAITING {
            let second = second::judge::judge(bytes, waiting as usize);
            let proved = proved::judge(bytes, waiting);
            if proved != second {
                let question = format!("judge with {waiting} waiting");
                return differs(&question, bytes, proved.into(), second.into());
            }
            self.tally.judged(bytes, waiting, second);
        }
        Ok(())
    }

    fn way(&mut self, bytes: &[u8]) -> Outcome {
        let record = read_one(bytes);
        for address in ADDRESSES {
            let second = match record {
                Err(_) => 3,
                Ok(record) => match record.direct_target(address) {
                    Some(target) => 1 + (u64::from(target) << 32),
                    None if record.takes_address() => 2,
                    None if matches!(record.action, Action::Filler { .. }) => 4,
                    None => 0,
                },
            };
            let proved = proved::way(bytes, address);
            if proved != second {
                return differs(&format!("way at 0x{address:08X}"), bytes, proved, second);
            }
            self.tally.went(second);
        }
        Ok(())
    }

    pub fn measure(&mut self, listing: &[u8], place: usize) -> Outcome {
        let second = match read(listing, place) {
            Err(_) => 0,
            Ok((record, length)) => length as u64 + (u64::from(record.machine_length()) << 32),
        };
        let proved = proved::measure(listing, place);
        if proved != second {
            return differs(&format!("measure at place {place}"), listing, proved, second);
        }
        self.tally.measured(second);
        Ok(())
    }

    /// At the end of a listing and in the middle of one.
    fn measure_within(&mut self, bytes: &[u8]) -> Outcome {
        let mut listing = std::mem::take(&mut self.listing);
        listing.clear();
        listing.extend_from_slice(&BEFORE);
        listing.extend_from_slice(bytes);
        self.measure(&listing, BEFORE.len())?;
        listing.extend_from_slice(&AFTER);
        self.measure(&listing, BEFORE.len())?;
        // kept for its room: this is called millions of times
        self.listing = listing;
        Ok(())
    }
}

#[cold]
fn differs(question: &str, bytes: &[u8], proved: u64, second: u64) -> Outcome {
    let bytes = format!("{} bytes: {}", bytes.len(), hex::line(bytes));
    Err(format!("difference: {question}\n{bytes}\nproved 0x{proved:X}\nsecond 0x{second:X}"))
}
