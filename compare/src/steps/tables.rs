//! Kind 16 (order 1 of paper 02): TBB and TBH from every base and index, with the entry in memory, at
//! the ends of it and beside them, in blocks and outside, and with targets that pass 2^32.

use super::scene::{scene, wait, Scene};
use super::spoil;
use crate::prng::Prng;
use crate::question::step::Question;
use crate::random_record;
use crate::table::TABLE_BRANCH;

const PC: u8 = 15;
/// "Rn not 13, Rm not 13 or 15"; Rn may be 15 too.
const USUAL: [u8; 14] = [0, 1, 2, 3, 4, 5, 6, 7, 8, 9, 10, 11, 12, 14];
/// Mostly at most one, for with more it is 4.
const WAITING: [u8; 16] = [0, 0, 0, 0, 0, 0, 1, 1, 1, 1, 1, 1, 1, 2, 3, 4];
/// What 3 is to be multiplied with to give 1 modulo 2^32.
const THIRD: u32 = 0xAAAA_AAAB;

pub fn question(prng: &mut Prng) -> Question {
    let mut record = record(prng);
    let mut scene = scene(prng);
    wait(prng, &mut scene.image, &WAITING);
    Aim { scene: &mut scene, halves: record[1] == 1, rn: record[3], rm: record[4] }.take(prng);
    if prng.once_in(40) {
        random_record::damage(prng, &mut record);
    }
    spoil::question(prng, record, scene)
}

fn record(prng: &mut Prng) -> Vec<u8> {
    let rm = prng.pick(&USUAL);
    let rn = match prng.below(10) {
        0..=2 => PC,
        3 | 4 => rm,
        _ => prng.pick(&USUAL),
    };
    let restricted = [(13, rm), (13, rm), (rn, 13), (rn, 15), (13, 13), (13, 15), (PC, PC)];
    let (rn, rm) = if prng.once_in(8) { prng.pick(&restricted) } else { (rn, rm) };
    vec![TABLE_BRANCH, prng.below(2) as u8, 2, rn, rm]
}

/// A table branch and the scene that is made to fit it.
struct Aim<'a> {
    scene: &'a mut Scene,
    halves: bool,
    rn: u8,
    rm: u8,
}

impl Aim<'_> {
    fn take(&mut self, prng: &mut Prng) {
        if prng.once_in(3) {
            let far = if self.halves { 40_000 } else { 160 };
            let words = prng.pick(&[2, far, far]);
            self.scene.set(PC, (2 + 2 * prng.below(words)).wrapping_neg());
        }
        if prng.once_in(40) {
            self.scene.memory.clear();
        }
        if self.rn == PC && !prng.once_in(5) {
            self.lend_over_code(prng);
        }
        let address = if prng.once_in(8) { self.across(prng) } else { self.address(prng) };
        self.lead(prng, address);
        let entry = self.entry(prng);
        self.put(entry);
    }

    fn bytes(&self) -> u32 {
        1 + u32::from(self.halves)
    }

    /// The address that R15 is read as: "address + 4".
    fn after_branch(&self) -> u32 {
        self.scene.get(PC).wrapping_add(4)
    }

    /// "with Rn 15, memory has to be lent over those addresses" (S9).
    fn lend_over_code(&mut self, prng: &mut Prng) {
        let length = self.scene.memory.len() as u32;
        let base = self.after_branch().saturating_sub(prng.below(length + 1));
        self.scene.base = base.min(0u32.wrapping_sub(length.max(1)));
    }

    /// Where the entry is to be: in memory, at either end of it, a byte further in or out, just past
    /// either end, far away.
    fn address(&self, prng: &mut Prng) -> u32 {
        let (base, bytes) = (self.scene.base, self.bytes());
        let room = (self.scene.memory.len() as u32).saturating_sub(bytes);
        let last = self.scene.end().wrapping_sub(bytes);
        match prng.below(24) {
            0 | 1 => base,
            2 | 3 => last,
            4 | 5 => last.wrapping_sub(1),
            6 => last.wrapping_add(1),
            7 => self.scene.end(),
            8 => base.wrapping_sub(1),
            9 => base.wrapping_sub(bytes),
            10 => prng.word(),
            11 => prng.pick(&[0, 1, 0xFFFF_FFFE, 0xFFFF_FFFF]),
            _ => base.wrapping_add(prng.below(room + 1)),
        }
    }

    /// The last address there is, from which a halfword passes 2^32, with memory up to that or from 0.
    fn across(&mut self, prng: &mut Prng) -> u32 {
        let length = self.scene.memory.len() as u32;
        self.scene.base = prng.pick(&[0, length.wrapping_neg()]);
        u32::MAX
    }

    /// Sets Rn and Rm so that the sum is the address, or one less where both are even by themselves.
    fn lead(&mut self, prng: &mut Prng, address: u32) {
        let (scale, top) = (u32::from(self.halves), prng.pick(&[0, 0x8000_0000]));
        let index = match (self.rn == self.rm, self.rn) {
            (true, _) if self.halves => address.wrapping_mul(THIRD),
            (true, _) => (address / 2) | top,
            (_, PC) if self.halves => (address.wrapping_sub(self.after_branch()) / 2) | top,
            (_, PC) => address.wrapping_sub(self.after_branch()),
            _ => {
                let (small, word) = (prng.below(16), prng.word());
                prng.pick(&[0, small, small, word, self.scene.get(self.rm)])
            }
        };
        self.scene.set(self.rm, index);
        if self.rn != self.rm && self.rn != PC {
            let index = self.scene.get(self.rm);
            self.scene.set(self.rn, address.wrapping_sub(index << scale));
        }
    }

    /// None at all, the highest, one whose top bit is set, one whose target is 2^32 or just below it,
    /// or any.
    fn entry(&self, prng: &mut Prng) -> u32 {
        let highest = if self.halves { 0xFFFF } else { 0xFF };
        let to_top = self.after_branch().wrapping_neg() / 2;
        match prng.below(8) {
            0 => 0,
            1 => highest,
            2 => highest / 2 + 1,
            3..=5 if to_top <= highest => to_top.saturating_sub(prng.pick(&[0, 1, 1])),
            _ => prng.word() & highest,
        }
    }

    /// Puts the entry where the branch reads it, as far as that is in memory.
    fn put(&mut self, entry: u32) {
        let table = if self.rn == PC { self.after_branch() } else { self.scene.get(self.rn) };
        let index = self.scene.get(self.rm) << u32::from(self.halves);
        let at = table.wrapping_add(index).wrapping_sub(self.scene.base);
        let bytes = entry.to_le_bytes();
        for (by, byte) in (0..self.bytes()).zip(bytes) {
            if let Some(slot) = self.scene.memory.get_mut(at.wrapping_add(by) as usize) {
                *slot = byte;
            }
        }
    }
}
