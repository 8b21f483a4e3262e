//! Sets the registers that a record reads, and what it loads, so that the step comes near a limit:
//! values that are all random would mostly miss memory, never divide by 0 and seldom saturate.

use super::ends::way;
use super::scene::{value, Scene};
use super::shifts;
use crate::prng::Prng;

const LDR: u8 = 0;
const PC: u8 = 15;
const SP: u8 = 13;
const AMOUNTS: [u32; 14] =
    [0, 1, 2, 30, 31, 32, 33, 63, 64, 255, 256, 257, 0x8000_0000, 0xFFFF_FFFF];
/// Few random numbers are among these.
const DIVISORS: [u32; 6] = [0, 0, 1, 2, 0x8000_0000, 0xFFFF_FFFF];
/// What 3, 5 and 9 are to be multiplied with to give 1 modulo 2^32.
const INVERSES: [u32; 4] = [0, 0xAAAA_AAAB, 0xCCCC_CCCD, 0x38E3_8E39];

pub fn aim(prng: &mut Prng, record: &[u8], scene: &mut Scene) {
    match *record {
        [0x01, _, _, _, rn, rm, ..] => relate(prng, scene, rn, rm),
        [0x03, _, _, _, _, rs] => amount(prng, scene, rs),
        [0x07, _, _, _, rn, rm, _] => relate(prng, scene, rn, rm),
        [0x08, _, _, _, _, rn, rm] => relate(prng, scene, rn, rm),
        [0x09, _, _, _, rn, rm] => quotient(prng, scene, rn, rm),
        [0x0A, _, _, _, bits, rm, shift, s] => saturation(prng, scene, [bits, shift, s], rm),
        [0x0D, op, _, rt, rn, mode, a, b] => {
            let address = address(prng, scene, width(op), op == LDR && rt == PC);
            base(scene, rn, address, mode, i16::from_le_bytes([a, b]));
            loaded(prng, scene, rt, address);
        }
        [0x0E, op, _, rt, rn, rm, n] => {
            let address = address(prng, scene, width(op), op == LDR && rt == PC);
            indexed(scene, [rn, rm], n & 3, address);
            loaded(prng, scene, rt, address);
        }
        [0x0F, _, _, _, _, rn, mode, a, b] => {
            let address = address(prng, scene, 8, true);
            base(scene, rn, address, mode, i16::from_le_bytes([a, b]));
        }
        [0x10, op, _, rn, _, a, b] => {
            let bytes = 4 * u16::from_le_bytes([a, b]).count_ones();
            let address = address(prng, scene, bytes, true);
            scene.set(rn, address.wrapping_add(if op & 1 == 1 { bytes } else { 0 }));
            loaded(prng, scene, PC, address.wrapping_add(bytes).wrapping_sub(4));
        }
        [0x12, _, _, rm] if !prng.once_in(4) => scene.set(rm, scene.get(rm) | 1),
        [0x13, _, _, rn, _] if prng.once_in(2) => scene.set(rn, 0),
        _ => (),
    }
    if prng.once_in(8) {
        ends(prng, record, scene);
    }
}

/// For a branch R15 so near an end of the addresses that the next record or a direct branch's target
/// is past it, or just not.
fn ends(prng: &mut Prng, record: &[u8], scene: &mut Scene) {
    let target = match *record {
        [0x11, _, _, _, a, b, c, d] => 4 + i32::from_le_bytes([a, b, c, d]),
        [0x13, _, _, _, offset] => 4 + i32::from(offset),
        _ => 4,
    };
    let (far, near) = (prng.pick(&[0, target]), 2 * prng.below(8) as i32 - 8);
    if way(record).is_some() {
        scene.set(PC, near.wrapping_sub(far) as u32);
    }
}

/// Two operands whose sum or difference is at a limit, or that are alike.
fn relate(prng: &mut Prng, scene: &mut Scene, rn: u8, rm: u8) {
    let x = scene.get(rn);
    let y = match prng.below(8) {
        0 => x,
        1 => !x,
        2 => x.wrapping_neg(),
        3 => x ^ 0x8000_0000,
        _ => return,
    };
    scene.set(rm, y.wrapping_add(prng.pick(&[0, 0, 1, u32::MAX])));
}

fn amount(prng: &mut Prng, scene: &mut Scene, rs: u8) {
    match prng.below(4) {
        0 => (),
        1 => scene.set(rs, prng.below(36)),
        2 => scene.set(rs, shifts::rs(prng)),
        _ => scene.set(rs, prng.pick(&AMOUNTS)),
    }
}

fn quotient(prng: &mut Prng, scene: &mut Scene, rn: u8, rm: u8) {
    if prng.once_in(2) {
        scene.set(rn, prng.pick(&[0x8000_0000, 0x7FFF_FFFF, 0xFFFF_FFFF, 7]));
    }
    match prng.below(4) {
        0 => (),
        1 => scene.set(rm, prng.word() >> prng.below(32)),
        _ => scene.set(rm, prng.pick(&DIVISORS)),
    }
}

/// A word that is, once shifted, at a bound of SSAT or USAT or beside it.
fn saturation(prng: &mut Prng, scene: &mut Scene, [bits, shift, s]: [u8; 3], rm: u8) {
    if prng.once_in(4) {
        return;
    }
    let bound = 1u64 << (bits & 63) >> prng.below(2);
    let near = (bound as u32).wrapping_add(prng.pick(&[0, 1, u32::MAX]));
    let near = prng.pick(&[near, near.wrapping_neg(), !near]);
    let by = u32::from(s) & 31;
    scene.set(rm, if shift == 0 { (near as i32 >> by) as u32 } else { near << by });
}

pub fn width(op: u8) -> u32 {
    match op {
        LDR | 5 => 4,
        2 | 4 | 7 => 2,
        _ => 1,
    }
}

/// Where an access of so many bytes is to begin: in memory, at its first and last byte, one byte or
/// one word past either, and anywhere.
fn address(prng: &mut Prng, scene: &Scene, bytes: u32, aligned: bool) -> u32 {
    let room = (scene.memory.len() as u32).saturating_sub(bytes);
    let last = scene.end().wrapping_sub(bytes);
    let address = match prng.below(24) {
        0 => scene.base,
        1 => last,
        2 => last.wrapping_add(1),
        3 => scene.base.wrapping_sub(1),
        4 => last.wrapping_add(4),
        5 => scene.base.wrapping_sub(4),
        6 => prng.pick(&[0, 1, 0xFFFF_FFFC, 0xFFFF_FFFD, 0xFFFF_FFFF]),
        7 => value(prng, scene),
        _ => scene.base.wrapping_add(prng.below(room + 1)),
    };
    match aligned && !prng.once_in(8) {
        true if address & !3 < scene.base => address.wrapping_add(3) & !3,
        true => address & !3,
        false => address,
    }
}

/// Rn from which a mode and an offset lead to the address. "as base of a load .. it is that with
/// bit 1 cleared" for R15, whose own bit 1 is left as it was.
fn base(scene: &mut Scene, rn: u8, address: u32, mode: u8, offset: i16) {
    let moved = address.wrapping_sub(offset as u32);
    match (rn, mode) {
        (PC, _) => scene.set(PC, (moved.wrapping_sub(4) & !2) | (scene.get(PC) & 2)),
        (_, 2) => scene.set(rn, address),
        _ => scene.set(rn, moved),
    }
}

/// Rn and Rm, which may be one register, with Rn + Rm * 2^n the address.
pub fn indexed(scene: &mut Scene, [rn, rm]: [u8; 2], n: u8, address: u32) {
    let index = scene.get(rm) << n;
    match (rn == rm, n) {
        (false, _) => scene.set(rn, address.wrapping_sub(index)),
        (true, 0) => scene.set(rn, (address / 2) | (index & 0x8000_0000)),
        (true, n) => scene.set(rn, address.wrapping_mul(INVERSES[usize::from(n)])),
    }
}

/// The word at an address made fit for the register, mostly: odd for R15, a multiple of 4 for R13.
fn loaded(prng: &mut Prng, scene: &mut Scene, rt: u8, address: u32) {
    let at = address.wrapping_sub(scene.base) as usize;
    match scene.memory.get_mut(at) {
        Some(byte) if rt == PC && !prng.once_in(4) => *byte |= 1,
        Some(byte) if rt == SP && !prng.once_in(4) => *byte &= !3,
        _ => (),
    }
}
