//! "Memory is one lent buffer of 0 to 1,048,576 bytes".

use crate::prng::Prng;

pub const LIMIT: usize = 1_048_576;
/// How many classes of lengths up to the limit there are.
pub const CLASSES: usize = 22;

/// 0 for no byte, 1 for one, 2 for two and three, and so on by powers of 2; the last is the limit
/// alone.
pub fn class(length: usize) -> Option<usize> {
    (length <= LIMIT).then(|| (usize::BITS - length.leading_zeros()) as usize)
}

/// Any length of at least one byte, up to the limit itself, all powers of 2 alike.
pub fn any(prng: &mut Prng) -> usize {
    let least = 1 << prng.below(CLASSES as u32 - 1);
    LIMIT.min((least + prng.below(least)) as usize)
}
