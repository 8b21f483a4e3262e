//! The check, which gives an accepted listing its layout.

use crate::layout::{Entry, Layout};
use crate::number::{Number, DONE, MISPLACED, NO_LANDING, UNFIT};
use crate::read::read;
use crate::record::{Action, Control, Record};
use crate::rules::{filler_may_follow, refusal};
use crate::waiting::Waiting;

const LIMIT: usize = 65_536;
const HIGHEST_END: u64 = 0xFFFF_FFFE;

/// A direct branch and where it goes.
struct Jump {
    place: usize,
    target: u32,
}

/// What reading all records gives: `end` is not taken modulo 2^32.
#[derive(Default)]
struct Walk {
    end: u64,
    addresses: Vec<u32>,
    entries: Vec<Entry>,
    jumps: Vec<Jump>,
}

/// The check's number and place; "An accepted listing reports place 0."
pub fn check(listing: &[u8], base: u32) -> (Number, u32) {
    match layout(listing, base) {
        Ok(_) => (DONE, 0),
        Err((number, place)) => (number, place as u32),
    }
}

pub fn layout(listing: &[u8], base: u32) -> Result<Layout, (Number, usize)> {
    // "listing over 65,536 bytes or base odd (place 0)"
    if listing.len() > LIMIT || base % 2 != 0 {
        return Err((UNFIT, 0));
    }
    let walk = walk(listing, base)?;
    // "Then comes the end address (1), then the lowest place with 9."
    if walk.end > HIGHEST_END {
        return Err((UNFIT, listing.len()));
    }
    let layout = Layout::new(listing.len(), walk.end as u32, walk.addresses, walk.entries);
    match walk.jumps.iter().find(|jump| !layout.lands(jump.target)) {
        Some(jump) => Err((NO_LANDING, jump.place)),
        None => Ok(layout),
    }
}

/// "The check reads all records first and reports 2, 3, 4 at the lowest place, the lowest number
/// there; blocks give the waiting conditions for rule 4, and a block not finished at the end is 4 at
/// place = length." A filler may stand "first in the listing".
fn walk(listing: &[u8], base: u32) -> Result<Walk, (Number, usize)> {
    let mut walk = Walk { end: u64::from(base), ..Walk::default() };
    let mut waiting = Waiting::NONE;
    let mut filler_may_stand = true;
    let mut place = 0;
    while place < listing.len() {
        let (record, length) = read(listing, place).map_err(|number| (number, place))?;
        if let Some(number) = fault(&record, waiting.len(), filler_may_stand) {
            return Err((number, place));
        }
        walk.add(Entry { place, length, record, waiting });
        filler_may_stand = filler_may_follow(&record, waiting.len());
        waiting = after(&record, waiting);
        place += length;
    }
    if waiting.is_empty() {
        Ok(walk)
    } else {
        Err((MISPLACED, listing.len()))
    }
}

/// Number 3 or 4 of a record in its spot. "an ill-placed filler is 4 at the filler's place", and no
/// filler is 3 here (S16).
fn fault(record: &Record, waiting: usize, filler_may_stand: bool) -> Option<Number> {
    match record.action {
        Action::Filler { .. } if filler_may_stand => None,
        Action::Filler { .. } => Some(MISPLACED),
        _ => refusal(record, waiting),
    }
}

impl Walk {
    fn add(&mut self, entry: Entry) {
        // Past 2^32 the address is of no account, for the end is then too high.
        let address = self.end as u32;
        self.end += u64::from(entry.record.machine_length());
        if let Action::Filler { .. } = entry.record.action {
            return;
        }
        if let Some(target) = entry.record.direct_target(address) {
            self.jumps.push(Jump { place: entry.place, target });
        }
        self.addresses.push(address);
        self.entries.push(entry);
    }
}

/// "An IT record's block is the next count records."
fn after(record: &Record, waiting: Waiting) -> Waiting {
    match record.action {
        Action::Control(Control::IfThen { condition, count, elses }) => {
            Waiting::block(condition, count, elses)
        }
        _ => waiting.rest(),
    }
}
