//! What can be changed between an end and a resume.

use crate::image::Image;
use crate::prng::Prng;
use crate::question::run;
use crate::steps::scene::fill;
use crate::table::{kind_of, FILLER, REGISTERS};
use crate::walk::{end_of, walk, Item};

const SP: usize = 13;
const PC: usize = 15;
const NOP: [u8; 2] = [0x15, 0];
const MORE: u32 = 256;

#[derive(Clone, Copy, PartialEq, Eq)]
pub enum Change {
    Nothing,
    Register,
    Back,
    Listing,
    Base,
    Memory,
}
use Change::*;

pub const CHANGES: [(Change, &str); 6] = [
    (Nothing, "as it was left"),
    (Register, "a register mended"),
    (Back, "R15 put back"),
    (Listing, "another listing"),
    (Base, "another base"),
    (Memory, "another memory"),
];

/// The machine's image is one, and this the place that was stored.
pub fn make(prng: &mut Prng, change: Change, run: &mut run::Question, stored: Option<u32>) {
    let place = stored.map_or(run.listing.len(), |place| run.listing.len().min(place as usize));
    let mut image = Image::of(&run.image).unwrap_or(Image::FRESH);
    match change {
        Nothing => return,
        Register => mend(prng, run, &mut image, place),
        Back => put_back(prng, run, &mut image),
        Listing => listing(prng, run, &mut image, place),
        Base => base(prng, run, &mut image),
        Memory => memory(prng, run),
    }
    run.image = image.bytes();
}

/// One of those that the record at the place names, or any: it then leads into memory, or, odd, to
/// a record. R13 stays a multiple of 4.
fn mend(prng: &mut Prng, run: &run::Question, image: &mut Image, place: usize) {
    let record = &run.listing[place..];
    let fields = match kind_of(record) {
        0 => &[],
        kind => REGISTERS[kind - 1],
    };
    let named = fields.iter().map(|&at| usize::from(record[at]));
    let named: Vec<usize> = named.filter(|&its| its < PC).collect();
    let any = prng.below(13) as usize;
    let register = if named.is_empty() { any } else { prng.pick(&named) };
    let into = (run.memory_base.wrapping_add(3) & !3).wrapping_add(4 * prng.below(16));
    let to = run.listing_base | 1;
    image.registers[register] =
        prng.pick(&[into, into, into, to, 0]) & if register == SP { !3 } else { !0 };
}

/// To a record, with what waits there.
fn put_back(prng: &mut Prng, run: &run::Question, image: &mut Image) {
    let items: Vec<Item> = walk(&run.listing).filter(|item| item.record[0] != FILLER).collect();
    if items.is_empty() {
        return;
    }
    let item = &items[prng.below(items.len() as u32) as usize];
    image.registers[PC] = run.listing_base.wrapping_add(item.at as u32);
    image.wait(&item.conditions);
}

/// A NOP more at its front, with R15 left or moved along; a NOP more at its end; a NOP for the
/// record at the place, so that those behind it move; what is from the place on.
fn listing(prng: &mut Prng, run: &mut run::Question, image: &mut Image, place: usize) {
    match prng.below(5) {
        0 => run.listing.splice(..0, NOP).for_each(drop),
        1 => {
            run.listing.splice(..0, NOP).for_each(drop);
            image.registers[PC] = image.registers[PC].wrapping_add(2);
        }
        2 => run.listing.extend(NOP),
        3 => {
            let (front, rest) = run.listing.split_at(place);
            let (bytes, form) = walk(rest).next().map_or((0, 0), |item| {
                (item.record.len(), if item.machine_bytes == 4 { 2 } else { 0 })
            });
            run.listing = [front, &[NOP[0], form], &rest[bytes..]].concat();
        }
        _ => {
            let from = end_of(&run.listing[..place]);
            run.listing = run.listing.split_off(place);
            run.listing_base = run.listing_base.wrapping_add(from as u32);
        }
    }
}

/// R15 is left, or moved along.
fn base(prng: &mut Prng, run: &mut run::Question, image: &mut Image) {
    let by = prng.pick(&[2, 4, 0u32.wrapping_sub(2), 0x100]);
    run.listing_base = run.listing_base.wrapping_add(by);
    if prng.once_in(2) {
        image.registers[PC] = image.registers[PC].wrapping_add(by);
    }
}

/// Other bytes, other addresses, fewer bytes, or more before and behind.
fn memory(prng: &mut Prng, run: &mut run::Question) {
    match prng.below(5) {
        0 => fill(prng, &mut run.memory),
        1 => run.memory.fill(prng.pick(&[0, 1, 0xFF])),
        2 => run.memory_base = run.memory_base.wrapping_sub(prng.pick(&[1, 2, 4])),
        3 => run.memory.truncate(run.memory.len() / 2),
        _ => {
            let before = run.memory_base.min(MORE);
            run.memory_base -= before;
            run.memory.splice(..0, vec![0; before as usize]).for_each(drop);
            let length = run.memory.len() as u32 + MORE;
            if run.memory_base.checked_add(length).is_some() {
                run.memory.resize(length as usize, 0);
            }
        }
    }
}
