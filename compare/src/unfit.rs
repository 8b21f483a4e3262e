//! What is number 1: bad machines, images that are none, and memory that does not fit.

use crate::image::{Image, CONDITIONS, COUNT, FLAGS};
use crate::prng::Prng;

const SP: usize = 13;
const PC: usize = 15;

/// "A machine is good when R15 is even, R13 is a multiple of 4, and each waiting condition is 0 to
/// 14, each the same as the first or its inverse; 14 has no inverse".
pub fn machine(prng: &mut Prng, image: &mut Image) {
    let count = 1 + prng.below(4) as u8;
    let at = prng.below(count.into()) as usize;
    let mut conditions = [prng.below(14) as u8; 4];
    match prng.below(8) {
        0 => return image.registers[PC] |= 1,
        1 | 2 => return image.registers[SP] |= 1 + prng.below(3),
        3 => conditions[at] = 15,
        4 => conditions[at] ^= prng.pick(&[2, 3, 4, 8, 15]),
        5 => conditions[at] = 14,
        6 => {
            conditions = [14; 4];
            conditions[at] = prng.pick(&[15, 12, 13, 0]);
        }
        _ => conditions[at] = prng.byte() | 16,
    }
    conditions[usize::from(count)..].fill(0);
    (image.count, image.conditions) = (count, conditions);
}

/// "An image of another length, with another flag byte, a count above 4 or a byte past the count
/// that is not 0".
pub fn image(prng: &mut Prng, image: &mut Vec<u8>) {
    match prng.below(6) {
        0 => image.truncate(73),
        1 => image.push(0),
        2 => image.truncate(prng.below(73) as usize),
        3 => image[FLAGS + prng.below(5) as usize] = prng.byte() | 2,
        4 => image[COUNT] = prng.byte().max(5),
        _ => {
            image[COUNT] = image[COUNT].min(3);
            let past = usize::from(image[COUNT]) + prng.below(4 - u32::from(image[COUNT])) as usize;
            image[CONDITIONS + past] = prng.pick(&[1, 14, 15, 255]);
        }
    }
}

/// A base from which memory of so many bytes is "past 2^32", by one byte or more; one of fewer than
/// two bytes cannot be.
pub fn past_the_top(prng: &mut Prng, length: u32) -> Option<u32> {
    match length {
        0 | 1 => None,
        _ => {
            let some = 1 + prng.below(length - 1);
            let past = prng.pick(&[1, 1, length - 1, some]);
            Some(length.wrapping_neg() + past)
        }
    }
}
