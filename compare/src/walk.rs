//! The records of a listing one after another, as far as they can be read.

/// A record, where it stands and which conditions wait there.
pub struct Item<'a> {
    pub place: usize,
    /// From the listing's base, in machine bytes.
    pub at: i64,
    pub record: &'a [u8],
    pub machine_bytes: i64,
    pub conditions: Vec<u8>,
}

impl Item<'_> {
    /// Where the next one stands.
    pub fn next(&self) -> i64 {
        self.at + self.machine_bytes
    }

    /// How many conditions wait.
    pub fn waiting(&self) -> usize {
        self.conditions.len()
    }
}

pub fn walk(listing: &[u8]) -> impl Iterator<Item = Item<'_>> {
    let (mut place, mut at, mut waiting) = (0, 0, Vec::new());
    std::iter::from_fn(move || {
        let (read, length) = second::read::read(listing, place).ok()?;
        let (record, machine_bytes) = (&listing[place..place + length], read.machine_length());
        let after = after(&waiting, record);
        let conditions = std::mem::replace(&mut waiting, after);
        let item = Item { place, at, record, machine_bytes: machine_bytes.into(), conditions };
        (place, at) = (place + length, item.next());
        Some(item)
    })
}

/// "An IT record's block is the next count records": what waits behind a record, by what waits at
/// it.
pub fn after(waiting: &[u8], record: &[u8]) -> Vec<u8> {
    match (waiting, record) {
        ([], &[0x14, _, condition, count, elses]) => {
            (0..count.min(4)).map(|at| condition ^ (elses << 1) >> at & 1).collect()
        }
        ([_, rest @ ..], _) => rest.to_vec(),
        _ => Vec::new(),
    }
}

/// Where the last record that can be read ends.
pub fn end_of(listing: &[u8]) -> i64 {
    walk(listing).last().map_or(0, |item| item.next())
}
