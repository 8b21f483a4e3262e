//! Programs out of pieces that really run: loops that count down, calls that return, jumps that
//! land. R0 to R5 hold data, R6 and R7 count, R8 points to data, R9 walks through it, R10 points to a
//! table of addresses, R11 to nothing good, R12 is for addresses, R13 is a stack.

mod access;
mod call;
mod counted;
mod jump;

use super::writer::{Label, Lack, Target, To, Writer};
use crate::prng::Prng;
use crate::random_record;

pub const COUNTERS: [u8; 2] = [7, 6];
pub const DATA: u8 = 8;
pub const WALK: u8 = 9;
pub const TABLE: u8 = 10;
pub const BAD: u8 = 11;
pub const SCRATCH: u8 = 12;
pub const SP: u8 = 13;
pub const LR: u8 = 14;
const PC: u8 = 15;
const AL: u8 = 14;
/// Pieces within pieces.
const DEPTH: u32 = 3;

/// What a program is to be like. A rate is one in so many, or never.
#[derive(Clone, Copy)]
pub struct Plan {
    pub records: usize,
    /// Of the addresses in registers and in memory, those that are no good.
    pub stray: Option<u32>,
    /// Of the pieces, those that a step refuses.
    pub fault: Option<u32>,
    /// Whether memory lies at the listing's own addresses, so that R15 leads to literal data.
    pub literal: bool,
}

struct Author<'a> {
    prng: &'a mut Prng,
    writer: Writer,
    plan: Plan,
    end: Label,
    /// How many counters are in use.
    counting: usize,
    /// R14 is wanted again, so that no call may change it.
    linked: bool,
}

/// Also gives the label of the program's end.
pub fn program(prng: &mut Prng, plan: Plan) -> (Writer, Label) {
    let mut writer = Writer::default();
    let end = writer.label();
    let mut author = Author { prng, writer, plan, end, counting: 0, linked: false };
    while author.wants_more() {
        author.piece(DEPTH);
    }
    author.writer.put_here(end);
    (author.writer, end)
}

impl Author<'_> {
    fn wants_more(&self) -> bool {
        self.writer.records.len() < self.plan.records
    }

    fn once_in(&mut self, rate: Option<u32>) -> bool {
        rate.map_or(false, |times| self.prng.once_in(times))
    }

    fn piece(&mut self, depth: u32) {
        if self.once_in(self.plan.fault) {
            return self.fault();
        }
        match self.prng.below(if depth == 0 { 12 } else { 24 }) {
            0..=4 => self.computing(0),
            5..=8 => self.access(),
            9 => self.writer.push(&[0x15, self.prng.pick(&[0, 2])]),
            10 | 11 => self.block(),
            12..=14 if self.counting < COUNTERS.len() => self.counted(depth),
            15 | 16 if !self.linked => self.call(depth),
            17 | 18 => self.skip(depth),
            19 | 20 => self.jump_over(depth),
            21 => self.stacked(depth),
            22 if self.prng.once_in(8) => self.back(),
            _ => self.block(),
        }
    }

    /// At least one piece.
    fn body(&mut self, depth: u32) {
        for _ in 0..1 + self.prng.below(3) {
            self.piece(depth - 1);
            if !self.wants_more() {
                return;
            }
        }
    }

    /// Of kinds 01 to 0C, to R0 to R5.
    fn computing(&mut self, waiting: usize) {
        let record = loop {
            let kind = 1 + self.prng.below(12) as u8;
            let mut record = match random_record::fitting(self.prng, kind, waiting) {
                Some(record) => record,
                None => continue,
            };
            record[3] %= 6;
            if kind == 0x08 {
                record[4] = (record[3] + 1) % 6;
            }
            if second::judge::judge(&record, waiting) == 0 {
                break record;
            }
        };
        self.writer.push(&record);
    }

    fn simple(&mut self, waiting: usize) {
        match self.prng.below(3) {
            0 => self.access(),
            _ => self.computing(waiting),
        }
    }

    /// An IT record and what is in its block, mostly with a branch at the end.
    fn block(&mut self) {
        let over = self.writer.label();
        let count = 1 + self.prng.below(4) as u8;
        self.it(count);
        for waiting in (2..=count).rev() {
            self.simple(waiting.into());
        }
        let form = self.prng.pick(&[0, 2]);
        match self.prng.below(4) {
            0 => self.branch(&[0x11, 0, form, AL, 0, 0, 0, 0], over),
            1 if !self.linked => self.branch(&[0x11, 1, 2, AL, 0, 0, 0, 0], over),
            _ => self.simple(1),
        }
        if self.prng.once_in(2) {
            self.simple(0);
        }
        self.writer.put_here(over);
    }

    fn it(&mut self, count: u8) {
        let condition = self.prng.below(15) as u8;
        let elses = if condition == AL { 0 } else { self.prng.below(1 << (count - 1)) as u8 };
        self.writer.push(&[0x14, 0, condition, count, elses]);
    }

    fn branch(&mut self, record: &[u8], to: Label) {
        self.writer.push_lacking(record, Lack::Offset(to));
    }

    /// A branch over some records, with a condition of its own or none.
    fn skip(&mut self, depth: u32) {
        let over = self.writer.label();
        let (condition, form) = (self.prng.below(15) as u8, self.prng.pick(&[0, 2]));
        let register = self.prng.below(8) as u8;
        match self.prng.below(4) {
            0 | 1 => self.branch(&[0x11, 0, form, condition, 0, 0, 0, 0], over),
            op => self.branch(&[0x13, op as u8 & 1, 0, register, 0], over),
        }
        self.body(depth);
        self.writer.put_here(over);
    }

    fn jump_over(&mut self, depth: u32) {
        let over = self.writer.label();
        let target = self.target(over);
        self.jump(target);
        self.body(depth);
        self.writer.put_here(over);
    }

    fn stacked(&mut self, depth: u32) {
        let list = self.prng.below(63) as u8 + 1;
        self.writer.push(&[0x10, 3, 0, SP, 1, list, 0]);
        self.body(depth);
        self.writer.push(&[0x10, 0, 0, SP, 1, list, 0]);
    }

    /// To a label that may be one passed already: such a run often has no end.
    fn back(&mut self) {
        if let Some(label) = self.writer.some_label(self.prng) {
            let (condition, form) = (self.prng.below(15) as u8, self.prng.pick(&[0, 2]));
            self.branch(&[0x11, 0, form, condition, 0, 0, 0, 0], label);
        }
    }

    /// The label, or by the program's plan an address that is no good.
    fn target(&mut self, near: Label) -> Target {
        let (to, odd) = (To::Label(near), true);
        if !self.once_in(self.plan.stray) {
            let to = if self.prng.once_in(12) { To::Label(self.end) } else { to };
            return Target { to, odd };
        }
        match self.prng.below(8) {
            0 | 1 => Target { to, odd: false },
            2 | 3 => Target { to: To::Inside, odd },
            4 => Target { to: To::Between, odd },
            5 => Target { to: To::BeforeBase, odd },
            6 => Target { to: To::PastEnd, odd },
            _ => Target { to: To::Anywhere(self.prng.word()), odd: self.prng.once_in(2) },
        }
    }

    /// R12 set to a target, or to how far it is from R15 at a label.
    fn address(&mut self, target: Target, from: Option<Label>) {
        for (op, high) in [(0, false), (1, true)] {
            let lack = Lack::Half { target, from, high };
            self.writer.push_lacking(&[0x05, op, 2, SCRATCH, 0, 0], lack);
        }
    }
}
