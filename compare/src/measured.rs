//! The records of a listing as the proved measure has them, and the place that "the walk would
//! find": order 6 of paper 02.

use crate::proved;
use crate::question::resume::NONE;
use crate::table::FILLER;

/// A record, its address and the next one's.
pub struct Measured<'a> {
    pub place: usize,
    pub record: &'a [u8],
    pub address: u64,
    pub next: u64,
}

/// From the base, as far as there are records.
pub fn measured(listing: &[u8], base: u32) -> impl Iterator<Item = Measured<'_>> {
    let (mut place, mut address) = (0, u64::from(base));
    std::iter::from_fn(move || {
        let both = proved::measure(listing, place);
        let (bytes, machine_bytes) = (both as u32 as usize, both >> 32);
        let record = listing.get(place..)?.get(..bytes).filter(|record| !record.is_empty())?;
        let item = Measured { place, record, address, next: address + machine_bytes };
        (place, address) = (place + bytes, item.next);
        Some(item)
    })
}

/// "by R15 alone: the place of the record at that address (in a block or not); the listing's length
/// at the end address; else "none", so at a filler, inside a filler or a record, and outside"
/// (S44).
pub fn place_at(listing: &[u8], base: u32, address: u32) -> u32 {
    let address = u64::from(address);
    let (mut past, mut end) = (0, u64::from(base));
    for item in measured(listing, base) {
        if item.address == address {
            return if item.record[0] == FILLER { NONE } else { item.place as u32 };
        }
        (past, end) = (item.place + item.record.len(), item.next);
    }
    if end == address && past == listing.len() {
        past as u32
    } else {
        NONE
    }
}
