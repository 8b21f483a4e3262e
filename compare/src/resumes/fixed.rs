//! Fresh runs and resumes that are the same in every run: the empty listing, listings at the limit,
//! every byte of an image, every length of the room.

use super::{places, Comparison};
use crate::image::Image;
use crate::image_bytes::sweep;
use crate::prng::Prng;
use crate::question::resume::{NONE, ROOM};
use crate::question::run;
use crate::table::FILLER;
use crate::walk::{walk, Item};
use crate::Outcome;

const LIMIT: usize = 65_536;
const BASE: u32 = 0x1000;
const PC: usize = 15;
const AL: u8 = 14;
const NOP: [u8; 2] = [0x15, 0];
/// CLZ in 2 machine bytes, the one record that makes a listing of NOPs odd.
const CLZ: [u8; 5] = [0x06, 0, 0, 1, 2];

pub fn all(comparison: &mut Comparison, prng: &mut Prng) -> Outcome {
    empty(comparison, prng)?;
    images(comparison)?;
    rooms(comparison)?;
    long(comparison, prng)
}

/// R15 at an address, these conditions waiting, and no memory.
fn run(listing: &[u8], base: u32, at: u32, waiting: &[u8], budget: u32) -> run::Question {
    let mut image = Image::FRESH;
    image.registers[PC] = at;
    image.wait(waiting);
    run::Question {
        image: image.bytes(),
        listing: listing.to_vec(),
        listing_base: base,
        memory: Vec::new(),
        memory_base: 0,
        budget,
        room: ROOM,
    }
}

/// "at its base the stored place is 0, which is its length" (S52).
fn empty(comparison: &mut Comparison, prng: &mut Prng) -> Outcome {
    for base in [0, 2, BASE, 0xFFFF_FFFE] {
        for at in [base, base.wrapping_add(2), base.wrapping_sub(2)] {
            for (waiting, budget) in [(&[][..], 0), (&[], 1), (&[AL], 1)] {
                let run = run(&[], base, at, waiting, budget);
                places::all(comparison, prng, &run, &[])?;
            }
        }
    }
    Ok(())
}

/// Every machine's image that differs from a good one in one byte.
fn images(comparison: &mut Comparison) -> Outcome {
    let mut image = Image::FRESH;
    image.registers[PC] = BASE;
    sweep(image, |image| {
        let run = run::Question { image, ..run(&NOP, BASE, BASE, &[], 2) };
        comparison.begin(&run)?;
        comparison.resume(&run, 0).map(|_| ())
    })
}

fn rooms(comparison: &mut Comparison) -> Outcome {
    for room in 0..=2 * ROOM {
        for (at, budget) in [(BASE, 0), (BASE, 1), (BASE + 4, 1)] {
            let run = run::Question { room, ..run(&NOP, BASE, at, &[], budget) };
            comparison.begin(&run)?;
            for stored in [0, 2, NONE] {
                comparison.resume(&run, stored)?;
            }
        }
    }
    Ok(())
}

/// Of 65,536 bytes and one less or more: near their ends, and with B from the end to the base;
/// fillers alone, as many as fit.
fn long(comparison: &mut Comparison, prng: &mut Prng) -> Outcome {
    for (bytes, form) in [(LIMIT - 1, 0), (LIMIT, 0), (LIMIT, 2), (LIMIT + 1, 0)] {
        let odd = &CLZ[..CLZ.len() * (bytes % 2)];
        let nops = (bytes - odd.len()) / 2;
        at_ends(comparison, prng, &[odd, &[NOP[0], form].repeat(nops)].concat())?;
    }
    let nops = NOP.repeat((LIMIT - 8) / 2);
    let back = -4 - nops.len() as i32;
    let b = [&[0x11, 0, 0, AL][..], &back.to_le_bytes()].concat();
    at_ends(comparison, prng, &[nops, b].concat())?;
    at_ends(comparison, prng, &[FILLER, 2, 0].repeat(LIMIT / 3))
}

fn at_ends(comparison: &mut Comparison, prng: &mut Prng, listing: &[u8]) -> Outcome {
    let items: Vec<Item> = walk(listing).collect();
    let end = BASE + items.last().map_or(0, Item::next) as u32;
    for (at, budget) in
        [(BASE, 1), (end - 6, 4), (end - 2, 0), (end - 2, 1), (end, 0), (end + 2, 1)]
    {
        places::all(comparison, prng, &run(listing, BASE, at, &[], budget), &items)?;
    }
    Ok(())
}
