//! Where a listing begins.

use crate::prng::Prng;

const TOP: i64 = 1 << 32;

/// Mostly somewhere in the middle, so that all else shows; then at 0, odd, and so that the end is
/// at 0xFFFFFFFE, just below it, at 2^32 and above. A base so high that it passes 2^32 comes round.
pub fn base(prng: &mut Prng, end: i64) -> u32 {
    let address = match prng.below(20) {
        0 => 0,
        1 => 2,
        2 => TOP - 4 - end,
        3 => TOP - 2 - end,
        4 => TOP - end,
        5 => TOP + 2 - end,
        6 => TOP - 2,
        7 => i64::from(prng.word() | 1),
        8 => i64::from(prng.word() & !1),
        9 => (TOP >> 1) - 2 * i64::from(prng.below(20)),
        _ => 0x1000,
    };
    address as u32
}
