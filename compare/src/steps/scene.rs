//! A good machine and a memory that fits, before a record is looked at.

use crate::image::Image;
use crate::prng::Prng;

const SP: u8 = 13;
const PC: u8 = 15;
const EDGES: [u32; 32] = [
    0, 0, 1, 1, 2, 3, 4, 5, 31, 32, 33, 0x7F, 0x80, 0xFF, 0x100, 0x7FFF, 0x8000, 0xFFFF, 0x1_0000,
    0x00FF_FFFF, 0x7FFF_FFFE, 0x7FFF_FFFF, 0x7FFF_FFFF, 0x8000_0000, 0x8000_0000, 0x8000_0001,
    0xFFFF_8000, 0xFFFF_FFFC, 0xFFFF_FFFD, 0xFFFF_FFFE, 0xFFFF_FFFF, 0xFFFF_FFFF,
];

pub struct Scene {
    pub image: Image,
    pub base: u32,
    pub memory: Vec<u8>,
}

impl Scene {
    /// 0 for a number that is no register: damaged records have such.
    pub fn get(&self, register: u8) -> u32 {
        self.image.registers.get(usize::from(register)).map_or(0, |&value| value)
    }

    /// Keeps the machine good: R13 a multiple of 4, R15 even.
    pub fn set(&mut self, register: u8, value: u32) {
        let value = match register {
            SP => value & !3,
            PC => value & !1,
            _ => value,
        };
        if let Some(slot) = self.image.registers.get_mut(usize::from(register)) {
            *slot = value;
        }
    }

    /// One past the last address of memory, modulo 2^32.
    pub fn end(&self) -> u32 {
        self.base.wrapping_add(self.memory.len() as u32)
    }
}

pub fn scene(prng: &mut Prng) -> Scene {
    let length = match prng.below(8) {
        0 => prng.below(10),
        1 => prng.pick(&[0, 4, 56, 64]),
        2 => prng.below(65),
        _ => 60 + prng.below(240),
    };
    let mut memory = vec![0; length as usize];
    fill(prng, &mut memory);
    let base = base(prng, length);
    let mut scene = Scene { image: Image::FRESH, base, memory };
    machine(prng, &mut scene);
    scene
}

pub fn fill(prng: &mut Prng, bytes: &mut [u8]) {
    for some in bytes.chunks_mut(4) {
        some.copy_from_slice(&prng.word().to_le_bytes()[..some.len()]);
    }
}

/// Memory from address 0, up to 2^32 itself, and between; multiples of 4 and not.
fn base(prng: &mut Prng, length: u32) -> u32 {
    match prng.below(12) {
        0 => 0,
        1 => length.wrapping_neg(),
        2 => 0x2000_0000 + prng.below(8),
        3 => 0x7FFF_FF80 + prng.below(256),
        4 => prng.word().min(u32::MAX - length),
        _ => 0x2000_0000,
    }
}

pub fn machine(prng: &mut Prng, scene: &mut Scene) {
    for register in 0..16 {
        let value = value(prng, scene);
        scene.set(register, value);
    }
    let bits = prng.word();
    scene.image.flags = [0, 1, 2, 3, 4].map(|bit| (bits >> bit & 1) as u8);
    waiting(prng, &mut scene.image);
}

pub fn value(prng: &mut Prng, scene: &Scene) -> u32 {
    let word = prng.word();
    match prng.below(9) {
        0 | 1 => prng.pick(&EDGES),
        2 => scene.base.wrapping_add(word >> 28).wrapping_sub(8),
        3 => scene.end().wrapping_add(word >> 28).wrapping_sub(8),
        4 => word >> prng.below(32),
        5 => (1 << prng.below(32)) - (word & 1),
        6 => word & !3,
        7 => word | 1,
        _ => word,
    }
}

/// "each waiting condition is 0 to 14, each the same as the first or its inverse; 14 has no
/// inverse".
fn waiting(prng: &mut Prng, image: &mut Image) {
    wait(prng, image, &[0, 0, 0, 0, 0, 0, 1, 1, 1, 2, 3, 4]);
}

/// As many conditions as one of the counts.
pub fn wait(prng: &mut Prng, image: &mut Image, counts: &[u8]) {
    let first = prng.below(15) as u8;
    image.count = prng.pick(counts);
    image.conditions = [0; 4];
    for slot in &mut image.conditions[..usize::from(image.count)] {
        *slot = first;
    }
    for slot in &mut image.conditions[1..usize::from(image.count.max(1))] {
        let inverse = if first == 14 { first } else { first ^ 1 };
        *slot = prng.pick(&[first, inverse]);
    }
}
