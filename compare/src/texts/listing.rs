//! Listings for rehearsals, which begin with memory and registers all 0.

use crate::checks::fault;
use crate::checks::listing::{accepted, end_of, Records};
use crate::image::Image;
use crate::prng::Prng;
use crate::random_record;
use crate::runs::pieces::{program, SCRATCH, SP, TABLE};
use crate::runs::scene::{machine, plan, Lies, Map};
use crate::runs::writer::{Setting, Target, To};

const BASE: u32 = 0x1000;
/// "memory 32,768 zero bytes at 0x20000000"; the table is behind what the programs read and write.
const MAP: Map = Map { base: 0x2000_0000, length: 32_768, data: 0x2000_0000, table: 0x2000_0040 };
const STR: u8 = 5;
/// Longer programs take too long in every room.
const RECORDS: usize = 24;

/// Mostly a program that runs, else any records that are accepted; and mistakes in either.
pub fn some(prng: &mut Prng) -> Vec<u8> {
    let mut records = match prng.below(4) {
        0 => {
            let count = prng.below(30);
            accepted(prng, count as usize)
        }
        _ => set_up(prng),
    };
    if prng.once_in(4) {
        for _ in 0..prng.pick(&[1, 1, 2, 3]) {
            fault::make(prng, &mut records);
        }
    }
    let mut bytes = records.concat();
    if prng.once_in(20) {
        random_record::damage(prng, &mut bytes);
    }
    bytes
}

/// A program as the runs have it, after records that make the machine and the table it wants.
fn set_up(prng: &mut Prng) -> Records {
    let mut plan = plan(prng, Lies::Usual);
    plan.records = plan.records.min(RECORDS);
    let (mut writer, end) = program(prng, plan);
    let to = prng.pick(&[To::Label(end), To::Label(end), To::Inside, To::PastEnd]);
    let link = writer.entry(Target { to, odd: true });
    // every value takes as many machine bytes as another
    let before = end_of(&prelude(&Image::FRESH, &vec![0; writer.table.len()])) as u32;
    let (records, table) = writer.finish(prng, &Setting { base: BASE + before, table: MAP.table });
    let image = machine(prng, &MAP, table[link]);
    [prelude(&image, &table), records].concat()
}

/// Sets every register but R13, which is as the programs want it, and R15.
fn prelude(image: &Image, table: &[u32]) -> Records {
    let mut records = word(TABLE, MAP.table);
    for (offset, &entry) in (0u16..).step_by(4).zip(table) {
        let [low, high] = offset.to_le_bytes();
        records.extend(word(SCRATCH, entry));
        records.push(vec![0x0D, STR, 2, SCRATCH, TABLE, 0, low, high]);
    }
    for (register, &value) in (0..15).zip(&image.registers) {
        if register != SP {
            records.extend(word(register, value));
        }
    }
    records
}

/// MOVW and MOVT.
fn word(register: u8, value: u32) -> Records {
    let [a, b, c, d] = value.to_le_bytes();
    vec![vec![0x05, 0, 2, register, a, b], vec![0x05, 1, 2, register, c, d]]
}
