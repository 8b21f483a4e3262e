//! A run of a listing within a budget of steps, fresh or resumed.

use crate::check::layout;
use crate::layout::{Entry, Layout};
use crate::machine::Machine;
use crate::memory::Memory;
use crate::number::{Number, DONE, STRAY, UNFIT, USED_UP};
use crate::step::perform;

#[derive(Clone, Copy, PartialEq, Eq, Debug)]
pub struct Ran {
    pub number: Number,
    pub place: u32,
    pub count: u32,
}

/// How a run ended, and the place it left with the machine; `None` is "none".
#[derive(Clone, Copy, PartialEq, Eq, Debug)]
pub struct Halted {
    pub ran: Ran,
    pub stored: Option<u32>,
}

/// "none" where a number is wanted (S45); no place is above 65,536.
const NONE: u32 = 0xFFFF_FFFF;

pub fn stored_from_number(number: u32) -> Option<u32> {
    (number != NONE).then_some(number)
}

pub fn stored_as_number(stored: Option<u32>) -> u32 {
    stored.unwrap_or(NONE)
}

/// The fresh run, where the stored place is not wanted.
pub fn run(
    machine: &mut Machine,
    listing: &[u8],
    listing_base: u32,
    memory: &mut [u8],
    memory_base: u32,
    budget: u32,
) -> Ran {
    begin(machine, listing, listing_base, memory, memory_base, budget).ran
}

/// "A fresh run sets the place to "none" before any test and to the walk's once the check accepts".
pub fn begin(
    machine: &mut Machine,
    listing: &[u8],
    listing_base: u32,
    memory: &mut [u8],
    memory_base: u32,
    budget: u32,
) -> Halted {
    match admitted(machine, listing, listing_base, memory, memory_base) {
        Ok((layout, memory)) => {
            let place = layout.place(machine.address());
            Running { machine, place }.rounds(&layout, memory, budget)
        }
        Err(ran) => Halted { ran, stored: None },
    }
}

/// "a resume whose stored place disagrees with R15 is 1 with place 0, tested just after the check". A
/// refused resume leaves the stored place as given (S47).
pub fn resume(
    machine: &mut Machine,
    listing: &[u8],
    listing_base: u32,
    memory: &mut [u8],
    memory_base: u32,
    budget: u32,
    stored: Option<u32>,
) -> Halted {
    let place = stored.map(|place| place as usize);
    match admitted(machine, listing, listing_base, memory, memory_base) {
        Ok((layout, memory)) if place == layout.place(machine.address()) => {
            Running { machine, place }.rounds(&layout, memory, budget)
        }
        Ok(_) => Halted { ran: Ran { number: UNFIT, place: 0, count: 0 }, stored },
        Err(ran) => Halted { ran, stored },
    }
}

/// "A run tests machine and memory (1), then the check". "A run also gives a place: the check's if the
/// check refused".
fn admitted<'a>(
    machine: &Machine,
    listing: &[u8],
    listing_base: u32,
    memory: &'a mut [u8],
    memory_base: u32,
) -> Result<(Layout, Memory<'a>), Ran> {
    let refused = |number, place| Ran { number, place, count: 0 };
    let memory = match Memory::lent(memory, memory_base) {
        Ok(memory) if machine.good() => memory,
        _ => return Err(refused(UNFIT, 0)),
    };
    match layout(listing, listing_base) {
        Ok(layout) => Ok((layout, memory)),
        Err((number, place)) => Err(refused(number, place as u32)),
    }
}

/// "Store the place with the running machine": beside the machine, so that a lone step does not see
/// it (S43). "Before every step the stored place is the one that the walk would find."
struct Running<'a> {
    machine: &'a mut Machine,
    place: Option<usize>,
}

impl Running<'_> {
    /// "then each round: end (0), stray (8), steps used up (10), step", with "the record's [place] for
    /// a refused step, else 0". A step leaves a good machine, and a record of the layout with the
    /// layout's conditions waiting is free of 2 to 4; so numbers 1 to 4 need no second test.
    fn rounds(mut self, layout: &Layout, mut memory: Memory, budget: u32) -> Halted {
        let mut count = 0;
        let (number, place) = loop {
            // "At the end address the place is the listing's length"
            if self.place == Some(layout.length()) && self.machine.waiting.is_empty() {
                break (DONE, 0);
            }
            // "R15 is neither a record's address nor the end, or the waiting list differs from the
            // layout's there"; at the end the layout has none (R22). "R15 at a filler is 8, tested
            // where 8 stands" (order 1).
            let here = self.place.and_then(|place| layout.entry(place));
            let entry = match here.filter(|entry| entry.waiting == self.machine.waiting) {
                Some(entry) => entry,
                None => break (STRAY, 0),
            };
            if count == budget {
                break (USED_UP, 0);
            }
            let number = self.step(entry, layout, &mut memory);
            if number != DONE {
                break (number, entry.place);
            }
            count += 1;
        };
        let ran = Ran { number, place: place as u32, count };
        Halted { ran, stored: self.place.map(|place| place as u32) }
    }

    /// "keep it true through each step, each branch, .. and each refused step", which "writes nothing".
    /// On to the next record the place grows by this record's listing bytes. Any other address is
    /// looked up: the end's, and a filler's too, for a jump can go to the filler right behind.
    fn step(&mut self, entry: &Entry, layout: &Layout, memory: &mut Memory) -> Number {
        let on = self.machine.address().wrapping_add(entry.record.machine_length());
        let number = perform(self.machine, &entry.record, memory);
        if number == DONE {
            let (address, next) = (self.machine.address(), entry.place + entry.length);
            let is_next = address == on && layout.entry(next).is_some();
            self.place = if is_next { Some(next) } else { layout.place(address) };
        }
        number
    }
}
