//! A program, a memory that fits, and a good machine.

use super::pieces::{program, Plan, BAD, COUNTERS, DATA, LR, SCRATCH, SP, TABLE, WALK};
use super::writer::{Setting, Target, To};
use crate::checks::base::base;
use crate::checks::listing::{end_of, Records};
use crate::image::Image;
use crate::prng::Prng;
use crate::steps::scene::fill;

const LISTING_BASE: u32 = 0x1000;
const MEMORY_BASE: u32 = 0x2000_0000;
/// What R8 points to.
const DATA_BYTES: u32 = 64;
const STACK_BYTES: u32 = 96;
/// More than the machine bytes of a program and what a load reaches past them.
const LITERAL_BYTES: u32 = 512;

#[derive(Clone, Copy, PartialEq, Eq)]
pub enum Lies {
    Usual,
    NoMultiple,
    At0,
    UpToTop,
    AtListing,
    Empty,
}
use Lies::*;

pub const MEMORIES: [(Lies, &str); 6] = [
    (Usual, "at 20000000"),
    (NoMultiple, "at an address that is no multiple of 4"),
    (At0, "at 0"),
    (UpToTop, "up to 2^32"),
    (AtListing, "at the listing"),
    (Empty, "of 0 bytes"),
];

pub struct Scene {
    pub records: Records,
    pub base: u32,
    pub image: Image,
    pub memory: Vec<u8>,
    pub memory_base: u32,
    pub lies: Lies,
}

/// Where the parts of memory are.
pub struct Map {
    pub base: u32,
    pub length: u32,
    pub data: u32,
    pub table: u32,
}

pub fn scene(prng: &mut Prng) -> Scene {
    let lies = match prng.below(16) {
        0..=8 => Usual,
        9 | 10 => AtListing,
        _ => prng.pick(&MEMORIES).0,
    };
    let plan = plan(prng, lies);
    let (mut writer, end) = program(prng, plan);
    let size = end_of(&writer.records);
    let base = match lies {
        AtListing => LISTING_BASE,
        _ if prng.once_in(4) => base(prng, size),
        _ => LISTING_BASE,
    };
    let links = prng.pick(&[To::Label(end), To::Label(end), To::Inside, To::PastEnd]);
    let link = writer.entry(Target { to: links, odd: true });
    let map = map(prng, lies, writer.table.len() as u32);
    let (records, table) = writer.finish(prng, &Setting { base, table: map.table });
    let image = machine(prng, &map, table[link]);
    let memory = if lies == Empty { Vec::new() } else { memory(prng, &map, &table) };
    Scene { records, base, image, memory, memory_base: map.base, lies }
}

pub fn plan(prng: &mut Prng, lies: Lies) -> Plan {
    let records = match prng.below(8) {
        0 => prng.below(4),
        1 | 2 => prng.below(16),
        3..=5 => prng.below(34),
        _ => prng.below(60),
    };
    Plan {
        records: records as usize,
        stray: prng.pick(&[None, None, Some(8), Some(2)]),
        fault: prng.pick(&[None, None, None, Some(40), Some(12)]),
        literal: lies == AtListing,
    }
}

fn map(prng: &mut Prng, lies: Lies, words: u32) -> Map {
    let before = if lies == AtListing { LITERAL_BYTES } else { 0 };
    let length = before + DATA_BYTES + 4 * words + STACK_BYTES + prng.below(8);
    let base = match lies {
        NoMultiple => MEMORY_BASE + 1 + prng.below(3),
        At0 => 0,
        UpToTop => length.wrapping_neg(),
        AtListing => LISTING_BASE,
        Usual | Empty => MEMORY_BASE,
    };
    let data = ((base + 3) & !3) + before;
    Map { base, length, data, table: data + DATA_BYTES }
}

fn memory(prng: &mut Prng, map: &Map, table: &[u32]) -> Vec<u8> {
    let mut memory = vec![0; map.length as usize];
    if !prng.once_in(4) {
        fill(prng, &mut memory);
    }
    let at = (map.table - map.base) as usize;
    for (bytes, word) in memory[at..].chunks_exact_mut(4).zip(table) {
        bytes.copy_from_slice(&word.to_le_bytes());
    }
    memory
}

/// R15 is for the start to set.
pub fn machine(prng: &mut Prng, map: &Map, link: u32) -> Image {
    let mut image = Image::FRESH;
    let end = map.base.wrapping_add(map.length);
    let mut set = |register: u8, value: u32| image.registers[usize::from(register)] = value;
    for register in 0..6 {
        let (small, word) = (prng.below(64), prng.word());
        set(register, prng.pick(&[0, small, word, word]));
    }
    for counter in COUNTERS {
        set(counter, 1 + prng.below(5));
    }
    set(DATA, map.data);
    set(WALK, map.data + 4 * prng.below(8));
    set(TABLE, map.table);
    let near = prng.pick(&[map.data + 1, map.data + 2, map.data + 3, end, map.base]);
    let below = map.base.wrapping_sub(8);
    set(BAD, prng.pick(&[near, near, end.wrapping_sub(2) & !3, end & !3, below, link]));
    set(SCRATCH, link);
    set(SP, end & !3);
    set(LR, link);
    let bits = prng.word();
    image.flags = [0, 1, 2, 3, 4].map(|bit| (bits >> bit & 1) as u8);
    image
}
