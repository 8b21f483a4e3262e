//! The number of a record by its bytes and by how many conditions wait.

use crate::number::{Number, DONE};
use crate::read::read_one;
use crate::rules::refusal;

/// The lowest of numbers 2, 3 and 4 for bytes that must be "one record and no more", or 0.
pub fn judge(bytes: &[u8], waiting: usize) -> Number {
    match read_one(bytes) {
        Ok(record) => refusal(&record, waiting).unwrap_or(DONE),
        Err(number) => number,
    }
}
