//! Steps that are refused, put into a program: 5, 6 and 7 are rare among its own.

use crate::image::Image;
use crate::prng::Prng;
use crate::proved;
use crate::question::run;
use crate::runs::pieces::{BAD, SP};
use crate::walk::{walk, Item};

/// What `proved::way` gives for a record that goes on to the next one.
const GOES_ON: u64 = 0;
const IF_THEN: u8 = 0x14;
const MOV: u8 = 10;

/// One, in place of a record of as many machine bytes that only goes on. R11 is set for it.
pub fn put(prng: &mut Prng, run: &mut run::Question) {
    let goes_on = |record: &[u8]| proved::way(record, 0) == GOES_ON && record[0] != IF_THEN;
    let items: Vec<Item> = walk(&run.listing).filter(|item| goes_on(item.record)).collect();
    let mut image = match Image::of(&run.image) {
        Some(image) if !items.is_empty() => image,
        _ => return,
    };
    let item = &items[prng.below(items.len() as u32) as usize];
    let places = item.place..item.place + item.record.len();
    let form = if item.machine_bytes == 4 { 2 } else { 0 };
    let past = run.memory_base.wrapping_add(run.memory.len() as u32 + 3) & !3;
    let odd = (run.memory_base & !3) + 1 + prng.below(3);
    let into = (run.memory_base.wrapping_add(3) & !3).wrapping_sub(run.memory_base) as usize;
    let (fault, bad) = match prng.below(8) {
        0 => (vec![0x0F, prng.below(2) as u8, form, 0, 1, BAD, 0, 0, 0], odd),
        1 => (vec![0x10, prng.below(4) as u8, form, BAD, 0, 3, 0], odd),
        2 => (vec![0x0D, prng.below(8) as u8, form, 1, BAD, 0, 0, 0], past),
        3 => (vec![0x0E, prng.below(8) as u8, form, 1, BAD, BAD, 0], past),
        4 => (vec![0x01, MOV, form, SP, 0, BAD, 0, 0], odd),
        5 | 6 if run.memory.len() > into => {
            run.memory[into] |= 1;
            let bad = run.memory_base.wrapping_add(into as u32);
            (vec![0x0D, 0, form, SP, BAD, 0, 0, 0], bad)
        }
        _ => (vec![0x02, 0, form, SP, SP, 1 + prng.below(3) as u8, 0, 0, 0], odd),
    };
    image.registers[usize::from(BAD)] = bad;
    run.image = image.bytes();
    run.listing.splice(places, fault);
}
