//! Sets what the subject reads, so that it comes near to ending as its case wants; whether it does is
//! seen by a run.

use super::cases::Case;
use super::reach::{accessed, Reach};
use crate::prng::Prng;
use crate::runs::tables::memory::put;
use crate::steps::aim::indexed;
use crate::steps::scene::Scene;

const SP: u8 = 13;
const PC: u8 = 15;
const UNALIGNED: u32 = 5;
const BAD_VALUE: u32 = 7;
const TOP: u64 = 1 << 32;

/// Where the subject stands, and the addresses that it may go to.
pub struct Site<'a> {
    pub record: &'a [u8],
    pub address: u32,
    pub goals: &'a [u32],
}

impl Site<'_> {
    fn goal(&self, prng: &mut Prng) -> u32 {
        let by = prng.pick(&[2, 4, 6, 0x100]);
        match prng.pick(self.goals) {
            goal if prng.once_in(8) => goal.wrapping_sub(by),
            goal => goal,
        }
    }

    fn accessed(&self, scene: &Scene) -> Option<(u32, u32)> {
        accessed(self.record, self.address, |register| scene.get(register))
    }

    fn after(&self) -> u32 {
        self.address.wrapping_add(4)
    }
}

pub fn aim(prng: &mut Prng, case: &Case, site: &Site, scene: &mut Scene) {
    let bad = case.number == BAD_VALUE;
    match *site.record {
        [0x01, 0, _, PC, PC, rm, ..] => {
            scene.set(rm, site.goal(prng).wrapping_sub(site.after()));
        }
        [0x01, _, _, PC, _, rm, ..] if rm != PC => scene.set(rm, site.goal(prng) | prng.below(2)),
        [0x01, _, _, SP, _, rm, ..] if rm != PC => {
            scene.set(rm, scene.get(rm) & !3 | if bad { 1 + prng.below(3) } else { 0 });
        }
        [0x12, _, _, rm] if rm != PC => {
            scene.set(rm, site.goal(prng) & !1 | u32::from(!bad));
        }
        [0x13, _, _, rn, _] if prng.once_in(2) => scene.set(rn, 0),
        [0x0D..=0x10 | 0x16, ..] => {
            lead(prng, case, site, scene);
            hold(prng, bad, site, scene);
        }
        _ => (),
    }
}

/// Sets base and index, or moves memory where R15 is the base, so that the access is where it is
/// wanted.
fn lead(prng: &mut Prng, case: &Case, site: &Site, scene: &mut Scene) {
    let bytes = site.accessed(scene).map_or(1, |(_, bytes)| bytes);
    let wanted = address(prng, case, site, scene, bytes);
    match *site.record {
        [0x0D, _, _, _, PC, ..] | [0x0F, _, _, _, _, PC, ..] => move_memory(site, scene, wanted),
        [0x0D, _, _, _, rn, mode, a, b] | [0x0F, _, _, _, _, rn, mode, a, b] => {
            let offset = if mode == 2 { 0 } else { i16::from_le_bytes([a, b]) };
            scene.set(rn, wanted.wrapping_sub(offset as u32));
        }
        [0x0E, _, _, _, rn, rm, n] => {
            if rn == SP && prng.once_in(2) {
                scene.set(rm, prng.below(8));
            }
            indexed(scene, [rn, rm], n, wanted);
        }
        [0x10, op, _, rn, ..] => {
            scene.set(rn, wanted.wrapping_add(if op & 1 == 1 { bytes } else { 0 }));
        }
        [0x16, _, _, PC, rm] => {
            scene.set(rm, prng.below(20));
            move_memory(site, scene, wanted);
        }
        [0x16, op, _, rn, rm] => indexed(scene, [rn, rm], op, wanted),
        _ => (),
    }
}

/// As far as memory may be moved.
fn move_memory(site: &Site, scene: &mut Scene, wanted: u32) {
    let actual = site.accessed(scene).map_or(wanted, |(address, _)| address);
    let base = scene.base.wrapping_add(actual.wrapping_sub(wanted));
    if u64::from(base) + scene.memory.len() as u64 <= TOP {
        scene.base = base;
    }
}

/// Where the access is to begin.
fn address(prng: &mut Prng, case: &Case, site: &Site, scene: &Scene, bytes: u32) -> u32 {
    let (base, end) = (scene.base, scene.end());
    let inside = 1 + prng.below(bytes.max(2) - 1);
    let room = scene.memory.len() as u32 - bytes;
    let any = prng.below(room + 1);
    let address = match case.reach.unwrap_or(Reach::Whole) {
        Reach::Whole => base.wrapping_add(prng.pick(&[0, room, any])),
        Reach::First => end.wrapping_sub(inside),
        Reach::Last => base.wrapping_sub(inside),
        Reach::Outside => match prng.below(6) {
            0 | 1 => end.wrapping_add(prng.below(4)),
            2 | 3 => base.wrapping_sub(bytes + prng.below(4)),
            4 => prng.pick(&[0, 0xFFFF_FFFC, 0xFFFF_FFFE, 0xFFFF_FFFF]),
            _ => prng.word(),
        },
    };
    let aligned = matches!(site.record, [0x0D | 0x0E, 0, _, PC, ..] | [0x0F | 0x10, ..]);
    match case.number {
        UNALIGNED => address & !3 | (1 + prng.below(3)),
        _ if !aligned => address,
        // up where memory begins, down where it ends
        _ if address.wrapping_sub(base) < 4 || case.reach == Some(Reach::Last) => {
            address.wrapping_add(3) & !3
        }
        _ => address & !3,
    }
}

/// What is loaded into R13 or R15, and the entry of a table branch, as far as it is in memory.
fn hold(prng: &mut Prng, bad: bool, site: &Site, scene: &mut Scene) {
    let (address, bytes) = match site.accessed(scene) {
        Some(access) => access,
        None => return,
    };
    let (goal, word) = (site.goal(prng), prng.word() & !3);
    let at = i64::from(address) - i64::from(scene.base);
    let last = at + i64::from(bytes) - 4;
    let memory = &mut scene.memory;
    let odd = u32::from(!bad);
    match *site.record {
        [0x0D | 0x0E, 0, _, PC, ..] => put(memory, at, &(goal & !1 | odd).to_le_bytes()),
        [0x0D | 0x0E, 0, _, SP, ..] => {
            let value = word | if bad { 1 + prng.below(3) } else { 0 };
            put(memory, at, &value.to_le_bytes());
        }
        [0x10, 0 | 1, _, _, _, _, 0x80..=0xFF] => {
            put(memory, last, &(goal & !1 | odd).to_le_bytes());
        }
        [0x16, ..] => {
            let entry = (goal.wrapping_sub(site.after()) / 2).to_le_bytes();
            put(memory, at, &entry[..bytes as usize]);
        }
        _ => (),
    }
}
