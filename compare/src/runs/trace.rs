//! The steps of a run one by one, to see what was among them.

use crate::question::run::Question;
use second::check::layout;
use second::image::decode;
use second::machine::Machine;
use second::memory::Memory;
use second::step::perform;

/// A step that was done.
pub struct Look<'a> {
    pub before: &'a Machine,
    pub record: &'a [u8],
    pub after: &'a Machine,
    /// The address of the next record.
    pub next: u32,
}

/// Looks at so many steps of a run, which are known to be done. It is the second program that steps,
/// but nothing is concluded from it: it is counted what the comparison has tried.
pub fn trace(question: &Question, count: u32, mut look: impl FnMut(&Look)) {
    let listing = &question.listing;
    let mut bytes = question.memory.clone();
    let parts = (
        decode(&question.image),
        layout(listing, question.listing_base),
        Memory::lent(&mut bytes, question.memory_base),
    );
    if let (Some(mut machine), Ok(layout), Ok(mut memory)) = parts {
        for _ in 0..count {
            let before = machine;
            let entry = match layout.at(before.address()) {
                Some(entry) => entry,
                None => return,
            };
            perform(&mut machine, &entry.record, &mut memory);
            let length = second::read::read(listing, entry.place).map_or(0, |(_, length)| length);
            let record = &listing[entry.place..entry.place + length];
            let next = before.address().wrapping_add(entry.record.machine_length());
            look(&Look { before: &before, record, after: &machine, next });
        }
    }
}
