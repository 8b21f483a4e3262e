//! Listings at the limit of 65,536 bytes: few steps in them, near their ends.

use super::Comparison;
use crate::image::Image;
use crate::question::run::{Question, ROOM};
use crate::Outcome;

const LIMIT: usize = 65_536;
const BASE: u32 = 0x1000;
const PC: usize = 15;
/// CLZ in 2 machine bytes, the one record that makes a listing of NOPs odd.
const CLZ: [u8; 5] = [0x06, 0, 0, 1, 2];

pub fn listings(comparison: &mut Comparison) -> Outcome {
    for (bytes, form) in [(LIMIT - 1, 0), (LIMIT, 0), (LIMIT, 2), (LIMIT + 1, 0)] {
        let odd = &CLZ[..CLZ.len() * (bytes % 2)];
        let nops = (bytes - odd.len()) / 2;
        let listing = [odd, &[0x15, form].repeat(nops)].concat();
        let end = BASE + (nops as u32 * if form == 2 { 4 } else { 2 }) + (bytes % 2 * 2) as u32;
        for start in [BASE, BASE + 2, end - 40, end - 2, end, end + 2] {
            for budget in [0, 1, 10, 100] {
                comparison.put(&question(&listing, start, budget))?;
            }
        }
    }
    Ok(())
}

fn question(listing: &[u8], start: u32, budget: u32) -> Question {
    let mut image = Image::FRESH;
    image.registers[PC] = start;
    Question {
        image: image.bytes(),
        listing: listing.to_vec(),
        listing_base: BASE,
        memory: Vec::new(),
        memory_base: 0,
        budget,
        room: ROOM,
    }
}
