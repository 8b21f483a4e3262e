//! The program about a subject: what comes before it uses registers of its own and changes one, the
//! flags and memory.

use super::cases::Case;
use super::record::record;
use super::Situation;
use crate::checks::listing::{end_of, spots, Records};
use crate::prng::Prng;
use crate::table::REGISTERS;

const AL: u8 = 14;
const LR: u8 = 14;
const STR: u8 = 5;

pub struct Code {
    pub records: Records,
    pub subject: usize,
    pub spare: Spare,
    pub block: Option<Block>,
    /// The record that sets the low half of a register which the subject names; the next one sets the
    /// high half.
    pub sets: Option<(usize, u8)>,
}

/// Two registers to compute with, and one that points to memory.
#[derive(Clone, Copy)]
pub struct Spare {
    pub data: [u8; 2],
    pub pointer: u8,
}

/// Where its IT record is, and which record of the block is the subject, from 0.
#[derive(Clone, Copy)]
pub struct Block {
    pub it: usize,
    pub at: u8,
}

pub fn code(prng: &mut Prng, case: &Case, situation: Situation) -> Option<Code> {
    let spare = Spare::some(prng);
    let (count, at, subject) = spot(prng, case, situation, &spare)?;
    let mut records = spare.changes(prng);
    let sets = named(prng, &subject).map(|register| (records.len(), register));
    if let Some((_, register)) = sets {
        records.extend([0, 1].map(|op| vec![0x05, op, 2, register, 0, 0]));
    }
    if prng.once_in(2) {
        records.push(vec![0x15, 0]);
    }
    let block = (count > 0).then_some(Block { it: records.len(), at });
    if block.is_some() {
        let elses = prng.below(1 << (count - 1)) as u8;
        records.push(vec![0x14, 0, 0, count, elses]);
    }
    records.extend((0..at).map(|_| spare.plain(prng)));
    let index = records.len();
    // of its own block, where it is an IT record
    let behind = match subject[..] {
        [0x14, _, _, count, _] => count,
        _ => (count - at).saturating_sub(1),
    };
    records.push(subject);
    records.extend((0..u32::from(behind) + 1 + prng.below(4)).map(|_| spare.plain(prng)));
    Some(Code { records, subject: index, spare, block, sets })
}

/// How many records the subject's block has, 0 for none, which of them it is, and the subject. What
/// branches is the last.
fn spot(
    prng: &mut Prng,
    case: &Case,
    situation: Situation,
    spare: &Spare,
) -> Option<(u8, u8, Vec<u8>)> {
    let (count, last) = match situation {
        Situation::Outside => (0, 0),
        _ => [(1, 0), (2, 1), (3, 2), (4, 3)][prng.below(4) as usize],
    };
    let any = prng.below(u32::from(last) + 1) as u8;
    [any, last].into_iter().find_map(|at| {
        let subject = record(prng, case, usize::from(count - at), &spare.all())?;
        Some((count, at, subject))
    })
}

impl Code {
    pub fn record(&self) -> &[u8] {
        &self.records[self.subject]
    }

    /// How far from the base the subject is.
    pub fn at(&self) -> i64 {
        spots(&self.records)[self.subject].at
    }

    /// Lets the subject's condition be this one. "IT with AL has no else."
    pub fn rule(&mut self, condition: u8) {
        if let Some(Block { it, at }) = self.block {
            let record = &mut self.records[it];
            if condition == AL {
                record[4] = 0;
            }
            record[2] = condition ^ (record[4] << 1) >> at & 1;
        }
    }

    /// The landing places behind the subject, the end among them.
    pub fn goals(&self) -> Vec<i64> {
        let behind = spots(&self.records).into_iter().skip(self.subject + 1);
        let landings = behind.filter(|spot| spot.lands).map(|spot| spot.at);
        landings.chain([end_of(&self.records)]).collect()
    }
}

/// One of the registers that a record names, at times: neither R13 nor R15.
fn named(prng: &mut Prng, record: &[u8]) -> Option<u8> {
    let places = REGISTERS[usize::from(record[0]) - 1];
    if places.is_empty() || !prng.once_in(3) {
        return None;
    }
    let register = record[prng.pick(places)];
    (register < 13 || register == LR).then_some(register)
}

impl Spare {
    /// R0 stands for no register in some records.
    fn some(prng: &mut Prng) -> Spare {
        let first = prng.below(12) as u8;
        let [one, other] = [prng.pick(&[1, 2, 5]), prng.pick(&[3, 4, 7])];
        let [a, b, c] = [0, one, other].map(|by| 1 + (first + by) % 12);
        Spare { data: [a, b], pointer: c }
    }

    fn all(&self) -> [u8; 3] {
        [self.data[0], self.data[1], self.pointer]
    }

    /// A sum with S and a store, in either order, and more.
    fn changes(&self, prng: &mut Prng) -> Records {
        let [a, b] = self.data;
        let (op, form) = (prng.pick(&[0, 2, 4, 7]), 1 | prng.pick(&[0, 2]));
        let sum = vec![0x02, op, form, a, a, 1 + prng.byte() % 255, 0, 0, 0];
        let store = vec![0x0D, STR, prng.pick(&[0, 2]), b, self.pointer, 0, 4, 0];
        let mut records = vec![sum, store];
        for _ in 0..prng.below(3) {
            records.push(self.plain(prng));
        }
        let (from, to) = (prng.below(2), prng.below(records.len() as u32));
        records.swap(from as usize, to as usize);
        records
    }

    /// Sets no flags.
    fn plain(&self, prng: &mut Prng) -> Vec<u8> {
        let (form, byte, word) = (prng.pick(&[0, 2]), prng.byte(), 4 * prng.below(4) as u8);
        let (rd, rn, rm) = (prng.pick(&self.data), prng.pick(&self.data), prng.pick(&self.data));
        match prng.below(8) {
            0 => vec![0x15, form],
            1 => vec![0x02, prng.below(10) as u8, form, rd, rn, byte, 0, 0, 0],
            2 => vec![0x01, prng.below(10) as u8, form, rd, rn, rm, byte % 3, 1 + byte % 31],
            3 => vec![0x03, byte % 4, form, rd, rn, rm],
            4 => vec![0x0D, prng.below(5) as u8, form, rd, self.pointer, 0, word, 0],
            5 => vec![0x0D, STR + prng.below(3) as u8, form, rd, self.pointer, 0, word, 0],
            6 => vec![0x07, 1, form, rd, rn, rm, rd],
            _ => vec![0x05, byte & 1, 2, rd, byte, byte],
        }
    }
}
