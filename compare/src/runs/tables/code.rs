//! Programs about one table branch. R0 and R3 to R7 are computed with, R10 is for BX; the table branch
//! has registers of its own, of which a loop counts Rm down.

use crate::checks::listing::{lead, retarget, spots, Records};
use crate::prng::Prng;
use crate::table::{FILLER, TABLE_BRANCH};

pub const LINK: u8 = 10;
const PC: u8 = 15;
const AL: u8 = 14;
const NE: u8 = 1;

pub struct Code {
    pub records: Records,
    /// Which record the table branch is.
    pub branch: usize,
    pub halves: bool,
    pub rn: u8,
    pub rm: u8,
    /// How many times round a loop goes, with Rm that and less; 0 where there is no loop.
    pub rounds: u8,
    /// The records that the table of a loop is for.
    pub cases: Vec<usize>,
}

impl Code {
    fn new(prng: &mut Prng) -> Code {
        let rm = prng.pick(&[1, 9, 14]);
        let rn = prng.pick(&[2, 8, 12, PC, PC, rm]);
        let halves = prng.once_in(2);
        let (records, cases) = (Records::new(), Vec::new());
        Code { records, branch: 0, halves, rn, rm, rounds: 0, cases }
    }

    /// The table branch, at times as the last of a block; else fillers may stand behind it.
    fn branch(&mut self, prng: &mut Prng) {
        let in_block = prng.once_in(3);
        if in_block {
            open(prng, &mut self.records);
        }
        self.branch = self.records.len();
        self.records.push(vec![TABLE_BRANCH, self.halves.into(), 2, self.rn, self.rm]);
        if !in_block && prng.once_in(2) {
            self.fillers(prng);
        }
    }

    /// Few bytes for TBB, which goes no further than 510.
    fn fillers(&mut self, prng: &mut Prng) {
        for _ in 0..prng.pick(&[1, 1, 2]) {
            let (small, any) = (2 + 2 * prng.below(20) as u16, (prng.word() as u16 & !1).max(2));
            let far = self.halves && prng.once_in(4);
            let number = if far { any } else { prng.pick(&[2, 4, small]) };
            self.records.push([&[FILLER][..], &number.to_le_bytes()].concat());
        }
    }

    /// Some records, a block, or a branch with fillers behind it.
    fn piece(&mut self, prng: &mut Prng) {
        match prng.below(4) {
            0 => {
                open(prng, &mut self.records);
                self.records.push(plain(prng));
            }
            1 | 2 => {
                let b = vec![0x11, 0, prng.pick(&[0, 2]), AL, 0, 0, 0, 0];
                self.records.push(if prng.once_in(3) { vec![0x12, 0, 0, LINK] } else { b });
                if !prng.once_in(4) {
                    self.fillers(prng);
                }
            }
            _ => {
                for _ in 0..1 + prng.below(3) {
                    self.records.push(plain(prng));
                }
            }
        }
    }
}

pub fn code(prng: &mut Prng) -> Code {
    let mut code = Code::new(prng);
    if prng.once_in(10) {
        code.fillers(prng);
    }
    if code.rn != code.rm && prng.once_in(4) {
        looped(prng, &mut code);
        return code;
    }
    for _ in 0..prng.below(3) {
        code.records.push(plain(prng));
    }
    code.branch(prng);
    for _ in 0..prng.below(7) {
        code.piece(prng);
    }
    retarget(prng, &mut code.records);
    code
}

/// MOV to Rm; the table branch, cases that each go to the same record, which counts down, and a branch
/// back.
fn looped(prng: &mut Prng, code: &mut Code) {
    code.rounds = 1 + prng.below(6) as u8;
    code.records.push(vec![0x02, 10, 0, code.rm, 0, code.rounds, 0, 0, 0]);
    let again = code.records.len();
    code.branch(prng);
    for _ in 0..1 + prng.below(4) {
        code.cases.push(code.records.len());
        code.records.push(plain(prng));
        code.records.push(vec![0x11, 0, prng.pick(&[0, 2]), AL, 0, 0, 0, 0]);
        if prng.once_in(2) {
            code.fillers(prng);
        }
    }
    let tail = code.records.len();
    code.records.push(vec![0x02, 2, 1, code.rm, code.rm, 1, 0, 0, 0]);
    code.records.push(vec![0x11, 0, prng.pick(&[0, 2]), NE, 0, 0, 0, 0]);
    let spots = spots(&code.records);
    for at in code.branch + 1..tail {
        lead(&mut code.records[at], spots[at].at, spots[tail].at);
    }
    lead(&mut code.records[tail + 1], spots[tail + 1].at, spots[again].at);
}

/// An IT record and all of its block but the last.
fn open(prng: &mut Prng, records: &mut Records) {
    let (condition, count) = (prng.below(15) as u8, 1 + prng.below(4) as u8);
    let elses = if condition == AL { 0 } else { prng.below(1 << (count - 1)) as u8 };
    records.push(vec![0x14, 0, condition, count, elses]);
    for _ in 1..count {
        records.push(plain(prng));
    }
}

/// Sets no flags, so that a loop goes by its own.
fn plain(prng: &mut Prng) -> Vec<u8> {
    let (form, byte) = (prng.pick(&[0, 2]), prng.byte());
    let (rd, rn) = (prng.pick(&[0, 3, 4, 5]), prng.pick(&[0, 3, 6, 7]));
    match prng.below(4) {
        0 => vec![0x15, form],
        1 => vec![0x02, 10, form, rd, 0, byte, 0, 0, 0],
        2 => vec![0x02, 0, form, rd, rn, byte, 0, 0, 0],
        _ => vec![0x01, prng.below(10) as u8, form, rd, rn, rd, 0, 0],
    }
}
