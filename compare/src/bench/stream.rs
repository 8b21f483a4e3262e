//! A stream of records as compiled code has them: computing, loads and stores into memory,
//! branches, blocks. R8 and R9 point into memory, R10 is an index and R13 a stack; each group of
//! records leaves them as they were, so that the stream can be stepped over and over. R14 stays
//! odd.

use super::BASE;
use crate::image::Image;
use crate::prng::Prng;

const AL: u8 = 14;

/// The records one after another, and where each ends.
pub struct Stream {
    bytes: Vec<u8>,
    ends: Vec<usize>,
}

pub fn machine() -> Image {
    let mut image = Image::FRESH;
    for (register, number) in image.registers.iter_mut().zip(0u32..) {
        *register = number.wrapping_mul(0x9E37_79B9);
    }
    image.registers[8..11].copy_from_slice(&[BASE + 0x100, BASE + 0x400, 25]);
    image.registers[13..].copy_from_slice(&[BASE + 0xC00, 0x1001, 0x1000]);
    image
}

impl Stream {
    pub fn new(seed: u64, records: usize) -> Stream {
        let (mut prng, mut stream) = (Prng::new(seed), Stream { bytes: vec![], ends: vec![] });
        while stream.ends.len() < records {
            group(&mut prng, &mut stream);
        }
        stream
    }

    pub fn records(&self) -> impl Iterator<Item = &[u8]> {
        let starts = std::iter::once(0).chain(self.ends.iter().copied());
        starts.zip(&self.ends).map(|(start, &end)| &self.bytes[start..end])
    }

    pub fn len(&self) -> usize {
        self.ends.len()
    }

    fn push(&mut self, record: &[u8]) {
        self.bytes.extend_from_slice(record);
        self.ends.push(self.bytes.len());
    }
}

/// In a hundred: some 45 that compute, 30 accesses, 15 branches, 10 blocks.
fn group(prng: &mut Prng, stream: &mut Stream) {
    match prng.below(20) {
        0..=8 => stream.push(&computing(prng, 1)),
        9..=12 => stream.push(&access(prng)),
        13 => there_and_back(prng, stream),
        14..=16 => stream.push(&branch(prng)),
        17 => {
            let count = 1 + prng.below(3) as u8;
            stream.push(&[
                0x14,
                0,
                prng.below(14) as u8,
                count,
                prng.below(1 << (count - 1)) as u8,
            ]);
            for _ in 0..count {
                stream.push(&computing(prng, 0));
            }
        }
        18 => stream.push(&[0x02, 12, 1, 0, low(prng), prng.byte(), 0, 0, 0]),
        _ => stream.push(&[0x15, 0]),
    }
}

fn low(prng: &mut Prng) -> u8 {
    prng.below(8) as u8
}

/// To R0 to R7, with flags set mostly where S is allowed.
fn computing(prng: &mut Prng, s: u8) -> Vec<u8> {
    let (d, n, m, a) = (low(prng), low(prng), low(prng), low(prng));
    let (op, s) = (prng.below(10) as u8, s & prng.byte());
    let byte = prng.byte();
    match prng.below(16) {
        0..=3 => vec![0x01, op, s, d, n, m, 0, 0],
        4 => vec![0x01, op, s | 2, d, n, m, 1 + op % 3, 1 + byte % 31],
        5 => vec![0x01, 10, s, d, 0, m, 0, 0],
        6..=8 => vec![0x02, op, s, d, n, byte, 0, 0, 0],
        9 => vec![0x02, 10, s, d, 0, byte, 0, 0, 0],
        10 => vec![0x03, op & 3, s, d, n, m],
        11 => vec![0x05, op & 1, 2, d, byte, m],
        12 => vec![0x07, 1 + (op & 1), 2, d, n, m, a],
        13 => vec![0x0B, 2 + (op & 1), 2, d, n, byte % 16, 1 + byte % 16],
        14 => vec![0x0C, op & 3, 0, d, m, 0],
        _ => prng
            .pick(&[
                &[0x06, 0, 2, d, m][..],
                &[0x08, 0, 2, d, (d + 1) & 7, n, m],
                &[0x09, 1, 2, d, n, m],
            ])
            .to_vec(),
    }
}

/// Words mostly.
fn access(prng: &mut Prng) -> Vec<u8> {
    let op = prng.pick(&[0, 0, 0, 0, 5, 5, 5, 1, 2, 3, 4, 6, 7]);
    let (rt, rn) = (low(prng), 8 + prng.below(2) as u8);
    match prng.below(8) {
        0 => vec![0x0E, op, 2, rt, rn, 10, prng.below(4) as u8],
        1 => vec![0x0F, op & 1, 2, rt, (rt + 1) & 7, rn, 0, 4 * prng.below(60) as u8, 0],
        2 => vec![0x0D, op, 0, rt, 13, 0, 4 * low(prng), 0],
        _ => vec![0x0D, op, 0, rt, rn, 0, 4 * prng.below(32) as u8, 0],
    }
}

/// Registers pushed and popped, or a pointer moved by an access and moved back by the next.
fn there_and_back(prng: &mut Prng, stream: &mut Stream) {
    if prng.once_in(2) {
        let list = (1 << low(prng) | prng.byte(), prng.pick(&[0, 0x40]));
        stream.push(&[0x10, 3, 0, 13, 1, list.0, list.1]);
        stream.push(&[0x10, 0, 0, 13, 1, list.0, list.1]);
    } else {
        stream.push(&[0x0D, prng.pick(&[0, 5]), 0, low(prng), 9, 2, 4, 0]);
        stream.push(&[0x0D, prng.pick(&[0, 5]), 2, low(prng), 9, 1, 0xFC, 0xFF]);
    }
}

fn branch(prng: &mut Prng) -> Vec<u8> {
    let offset = 2 * prng.below(100) as u8;
    match prng.below(8) {
        0 | 1 => vec![0x13, prng.below(2) as u8, 0, low(prng), offset & 126],
        2 => vec![0x11, 1, 2, AL, offset, 0, 0, 0],
        3 => vec![0x12, 0, 0, 14],
        4 => vec![0x11, 0, 0, AL, offset, 0, 0, 0],
        _ => vec![0x11, 0, 0, prng.below(14) as u8, offset, 0xFF, 0xFF, 0xFF],
    }
}
