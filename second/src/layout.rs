//! An accepted listing: its records by their addresses and by their places.

use crate::record::Record;
use crate::waiting::Waiting;

/// A record of the listing: "a place counts listing bytes, an address counts machine bytes". The
/// length is in listing bytes.
#[derive(Clone, Copy)]
pub struct Entry {
    pub place: usize,
    pub length: usize,
    pub record: Record,
    pub waiting: Waiting,
}

/// Fillers have no entry; the addresses of the entries rise, and are searched by halves, for fillers
/// can set them far apart. Places are close, so each has the index of its entry, if one begins there.
pub struct Layout {
    end: u32,
    addresses: Vec<u32>,
    entries: Vec<Entry>,
    indices: Vec<Option<u32>>,
}

impl Layout {
    /// Of a listing of so many bytes, with each entry's address.
    pub fn new(length: usize, end: u32, addresses: Vec<u32>, entries: Vec<Entry>) -> Layout {
        let mut indices = vec![None; length];
        for (index, entry) in (0..).zip(&entries) {
            indices[entry.place] = Some(index);
        }
        Layout { end, addresses, entries, indices }
    }

    /// In listing bytes.
    pub fn length(&self) -> usize {
        self.indices.len()
    }

    /// None at a filler and inside one, and at any address that is not a record's.
    pub fn at(&self, address: u32) -> Option<&Entry> {
        let index = self.addresses.binary_search(&address).ok()?;
        self.entries.get(index)
    }

    /// None at a filler's place, at the listing's length, and at any place that is not a record's.
    pub fn entry(&self, place: usize) -> Option<&Entry> {
        let index = (*self.indices.get(place)?)?;
        self.entries.get(index as usize)
    }

    /// "Landing places are addresses of records outside all blocks, and the end address." "A filler is
    /// no landing place".
    pub fn lands(&self, address: u32) -> bool {
        address == self.end || self.at(address).map_or(false, |entry| entry.waiting.is_empty())
    }

    /// Order 6: the place "that the walk would find. At the end address the place is the listing's
    /// length; a stray R15, or one at a filler, has a stated "none"." The waiting list plays no part
    /// (S44).
    pub fn place(&self, address: u32) -> Option<usize> {
        if address == self.end {
            return Some(self.length());
        }
        self.at(address).map(|entry| entry.place)
    }
}
