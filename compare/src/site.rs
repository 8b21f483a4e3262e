//! Where an address is in a listing.

use crate::table::FILLER;
use crate::walk::Item;

#[derive(Clone, Copy, PartialEq, Eq, Debug)]
pub enum Site {
    Outside,
    End,
    Filler,
    InFiller,
    InBlock,
    InRecord,
    Above,
    Below,
}
use Site::*;

/// By the listing's records; with the record that stands there or around.
pub fn site<'b, 'a>(
    items: &'b [Item<'a>],
    base: u32,
    address: u32,
) -> (Site, Option<&'b Item<'a>>) {
    let at = match address.checked_sub(base) {
        Some(at) => i64::from(at),
        None => return (Below, None),
    };
    let item = items.get(items.partition_point(|item| item.next() <= at));
    let site = match item {
        None if items.last().map_or(0, Item::next) == at => End,
        None => Above,
        Some(item) if item.record[0] == FILLER && at > item.at => InFiller,
        Some(item) if item.record[0] == FILLER => Filler,
        Some(item) if at > item.at => InRecord,
        Some(item) if item.waiting() > 0 => InBlock,
        Some(_) => Outside,
    };
    (site, item)
}
