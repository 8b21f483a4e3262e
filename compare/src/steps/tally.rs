//! How the steps ended, and whether all that the papers let occur did.

use super::ends::Ends;
use super::fillers::Fillers;
use super::reversals::Reversals;
use super::shifts::Shifts;
use super::sights::{Look, SIGHTS};
use super::table_sights::Tables;
use crate::cover::Cover;
use crate::image::{CONDITIONS, COUNT};
use crate::image_bytes::ImageBytes;
use crate::memory_length::{self, CLASSES, LIMIT};
use crate::question::step::{Answer, Question};
use crate::shapes::Shapes;
use crate::table::{self, KINDS, OPS};
use std::fmt;

const NUMBERS: usize = 8;
const AL: usize = 14;
/// "list not empty, without 13; stores without 15; loads without 14 and 15 together": 1 to 14.
const SIZES: u32 = 0b0111_1111_1111_1110;

pub struct Tally {
    /// Row 0 is for bytes that start with no kind.
    ended: [[u64; NUMBERS]; KINDS + 1],
    /// Steps done whose condition passed, by kind and op.
    done: [[u64; 16]; KINDS + 1],
    /// Steps done under a condition: how often it failed, how often it passed.
    ruled: [[u64; 2]; AL + 1],
    /// Steps done, by how many conditions waited.
    waited: [u64; 5],
    /// The sizes of the lists of kind 10 done, as a bit each, by op.
    sizes: [u32; 4],
    seen: [u64; SIGHTS.len()],
    shifts: Shifts,
    reversals: Reversals,
    tables: Tables,
    fillers: Fillers,
    ends: Ends,
    shapes: Shapes,
    images: ImageBytes,
    /// Lengths of memory with which steps were done, and accesses passed.
    lengths: Cover,
    /// Steps refused for memory of one byte more than its limit.
    over: u64,
}

impl Tally {
    pub fn new(stock: &[Vec<u8>]) -> Tally {
        // without a byte there is nothing to access
        let is_case = |class: usize, accessed: usize| class > 0 || accessed == 0;
        Tally {
            ended: [[0; NUMBERS]; KINDS + 1],
            done: [[0; 16]; KINDS + 1],
            ruled: [[0; 2]; AL + 1],
            waited: [0; 5],
            sizes: [0; 4],
            seen: [0; SIGHTS.len()],
            shifts: Shifts::new(),
            reversals: Reversals::new(),
            tables: Tables::new(),
            fillers: Fillers::new(),
            ends: Ends::new(),
            shapes: Shapes::new(stock),
            images: ImageBytes::new(),
            lengths: Cover::new("lengths of memory by powers of 2", [CLASSES, 2], is_case),
            over: 0,
        }
    }

    pub fn step(&mut self, question: &Question, answer: &Answer) {
        let number = answer.number;
        self.ended[table::kind_of(&question.record)][number as usize] += 1;
        self.shapes.see(&question.record, number);
        self.images.see(&question.image, number);
        self.tables.see(question, answer);
        self.fillers.see(question, number);
        if number == 0 {
            self.done(question, &answer.lent.image);
        }
        if number == 1 && question.memory.len() == LIMIT + 1 && question.is_fit_but_for_length() {
            self.over += 1;
        }
    }

    fn done(&mut self, question: &Question, image_after: &[u8]) {
        let Question { image, record, .. } = question;
        let look = Look { image, record, image_after };
        let (kind, op) = (table::kind_of(record), table::op_of(record));
        let class = memory_length::class(question.memory.len());
        self.ends.see(&look);
        if let Some(class) = class {
            self.lengths.see(class, 0);
        }
        let passed = match ruling(image, record) {
            Some(condition) => {
                let machine = second::image::decode(image);
                let passed = machine.map_or(false, |machine| machine.passes(condition));
                self.ruled[usize::from(condition)][usize::from(passed)] += 1;
                passed
            }
            None => true,
        };
        self.waited[usize::from(image[COUNT])] += 1;
        if !passed {
            return;
        }
        self.done[kind][op] += 1;
        self.shifts.see(&look);
        self.reversals.see(&look);
        if let (0x0D..=0x10, Some(class)) = (kind, class) {
            self.lengths.see(class, 1);
        }
        if let [0x10, _, _, _, _, a, b] = record[..] {
            self.sizes[op] |= 1 << u16::from_le_bytes([a, b]).count_ones();
        }
        for (seen, (_, sees)) in self.seen.iter_mut().zip(SIGHTS) {
            *seen += u64::from(sees(&look));
        }
    }

    /// Where what occurred is not what the papers let occur, neither more nor less.
    pub fn gaps(&self) -> Vec<String> {
        let mut gaps = Vec::new();
        for (kind, ended) in self.ended.iter().enumerate() {
            for (number, &count) in ended.iter().enumerate() {
                if (count > 0) != table::possible(kind, number) {
                    gaps.push(format!("number {number} of kind {kind:02X}: {count} times"));
                }
            }
        }
        for (kind, done) in (1..).zip(&self.done[1..]) {
            for op in (0..usize::from(OPS[kind - 1])).filter(|&op| done[op] == 0) {
                gaps.push(format!("op {op} of kind {kind:02X} never passed"));
            }
        }
        for (condition, &[failed, passed]) in self.ruled.iter().enumerate() {
            if passed == 0 || (failed > 0) != (condition < AL) {
                gaps.push(format!("condition {condition}: {failed} failed, {passed} passed"));
            }
        }
        if self.waited.contains(&0) {
            gaps.push(format!("conditions waiting: {:?}", self.waited));
        }
        for (op, &sizes) in self.sizes.iter().enumerate().filter(|(_, &sizes)| sizes != SIZES) {
            gaps.push(format!("sizes of lists of op {op} of kind 10: {sizes:016b}"));
        }
        for ((name, _), _) in SIGHTS.iter().zip(self.seen).filter(|&(_, seen)| seen == 0) {
            gaps.push(format!("never {name}"));
        }
        if self.over == 0 {
            gaps.push("memory was never one byte over its limit".to_string());
        }
        gaps.extend(self.lengths.gap());
        gaps.extend(self.shifts.gaps());
        gaps.extend(self.reversals.gaps());
        gaps.extend(self.tables.gaps());
        gaps.extend(self.fillers.gaps());
        [gaps, self.ends.gaps(), self.shapes.gaps(), self.images.gaps()].concat()
    }
}

/// "If a condition is waiting, the first one rules; kind 11 outside a block uses its own."
fn ruling(image: &[u8], record: &[u8]) -> Option<u8> {
    match (image[COUNT], record) {
        (0, [0x11, _, _, own, ..]) => Some(*own),
        (0, _) => None,
        _ => Some(image[CONDITIONS]),
    }
}

impl fmt::Display for Tally {
    fn fmt(&self, f: &mut fmt::Formatter<'_>) -> fmt::Result {
        let numbers: Vec<String> = (0..NUMBERS).map(|number| format!("{number:9}")).collect();
        writeln!(f, "ended with {}", numbers.concat())?;
        for kind in (1..=KINDS).chain([0]) {
            let name = if kind == 0 { "none".to_string() } else { format!("{kind:02X}") };
            row(f, &name, self.ended[kind])?;
        }
        let mut all = [0; NUMBERS];
        for (number, total) in all.iter_mut().enumerate() {
            *total = self.ended.iter().map(|row| row[number]).sum();
        }
        row(f, "all", all)?;
        let ops: usize = self.done.iter().flatten().filter(|&&count| count > 0).count();
        let [none, one, two, three, four] = self.waited;
        writeln!(f, "done: {ops} operations, with none to four conditions waiting:")?;
        writeln!(f, "      {none}, {one}, {two}, {three}, {four}")?;
        let seen: Vec<String> = SIGHTS
            .iter()
            .zip(self.seen)
            .map(|((name, _), seen)| format!("{name} {seen}"))
            .collect();
        writeln!(f, "among them: {}", seen.join(", "))?;
        writeln!(f, "{}; one byte over its limit: {}", self.lengths, self.over)?;
        write!(f, "{}{}", self.shifts, self.reversals)?;
        write!(f, "{}{}", self.tables, self.fillers)?;
        write!(f, "{}{}{}", self.ends, self.shapes, self.images)
    }
}

fn row(f: &mut fmt::Formatter<'_>, name: &str, counts: [u64; NUMBERS]) -> fmt::Result {
    let counts = counts.map(|count| format!("{count:9}"));
    writeln!(f, "{name:11}{}", counts.concat())
}
