//! How often each answer was compared, and whether that is all that paper 01 and order 1 of paper 02
//! have.

use crate::cover::Cover;
use crate::shapes::Shapes;
use crate::table::{self, possible_forms, KINDS};
use std::fmt;

const NUMBERS: [usize; 4] = [0, 2, 3, 4];
const LONGEST: usize = 65_534;

/// Row 0 is for bytes that start with no kind.
pub struct Tally {
    strings: u64,
    judged: [[u64; 5]; KINDS + 1],
    /// The forms of the records done, as a bit each, by kind and op.
    done: [[u8; 16]; KINDS + 1],
    ways: [u64; 5],
    /// No record, of 2 machine bytes, of 4, of more, which only a filler has.
    measured: [u64; 4],
    /// The machine bytes that there are: 2 to 65,534, even.
    lengths: Cover,
    shapes: Shapes,
}

impl Tally {
    pub fn new(stock: &[Vec<u8>]) -> Tally {
        let (judged, done) = ([[0; 5]; KINDS + 1], [[0; 16]; KINDS + 1]);
        let shapes = Shapes::new(stock);
        let is_case = |_, bytes: usize| bytes > 0 && bytes % 2 == 0;
        let lengths = Cover::new("machine bytes of records", [1, LONGEST + 1], is_case);
        Tally { strings: 0, judged, done, ways: [0; 5], measured: [0; 4], lengths, shapes }
    }

    pub fn string(&mut self) {
        self.strings += 1;
    }

    pub fn strings(&self) -> u64 {
        self.strings
    }

    pub fn judged(&mut self, bytes: &[u8], waiting: u32, number: u32) {
        let kind = table::kind_of(bytes);
        self.judged[kind][number as usize] += 1;
        if waiting > 0 {
            return;
        }
        if number == 0 {
            self.done[kind][table::op_of(bytes)] |= 1 << table::form_of(bytes);
        }
        self.shapes.see(bytes, number);
    }

    pub fn went(&mut self, way: u64) {
        self.ways[(way & 7) as usize] += 1;
    }

    pub fn measured(&mut self, measure: u64) {
        let bytes = (measure >> 32) as usize;
        self.measured[(bytes / 2).min(3)] += 1;
        if bytes > 0 {
            self.lengths.see(0, bytes);
        }
    }

    /// Where what occurred is not what the papers let occur, neither more nor less.
    pub fn gaps(&self) -> Vec<String> {
        let mut gaps = Vec::new();
        for kind in 0..=KINDS {
            for (number, &count) in self.judged[kind].iter().enumerate() {
                if (count > 0) != possible(kind, number) {
                    gaps.push(format!("number {number} of kind {kind:02X}: {count} times"));
                }
            }
            for (op, &forms) in self.done[kind].iter().enumerate() {
                if forms != possible_forms(kind, op) {
                    gaps.push(format!("forms done of kind {kind:02X}, op {op}: {forms:04b}"));
                }
            }
        }
        if self.ways.contains(&0) {
            gaps.push("some way never occurred".to_string());
        }
        if self.measured.contains(&0) {
            gaps.push("some length never occurred".to_string());
        }
        gaps.extend(self.lengths.gap());
        gaps.extend(self.shapes.gaps());
        gaps
    }
}

/// Number 1 is not for records.
fn possible(kind: usize, number: usize) -> bool {
    number != 1 && table::possible(kind, number)
}

impl fmt::Display for Tally {
    fn fmt(&self, f: &mut fmt::Formatter<'_>) -> fmt::Result {
        writeln!(f, "judged       number 0     number 2     number 3     number 4")?;
        for kind in (1..=KINDS).chain([0]) {
            let name = if kind == 0 { "none".to_string() } else { format!("{kind:02X}") };
            row(f, &name, NUMBERS.map(|number| self.judged[kind][number]))?;
        }
        row(f, "all", NUMBERS.map(|number| self.judged.iter().map(|row| row[number]).sum()))?;
        let [next, direct, taken, none, filler] = self.ways;
        writeln!(
            f,
            "ways: {next} next, {direct} direct, {taken} taken, {none} no record, {filler} filler"
        )?;
        let [none, two, four, more] = self.measured;
        let measures =
            format!("{two} of 2 bytes, {four} of 4 bytes, {more} of more, {none} no record");
        writeln!(f, "measures: {measures}\n{}", self.lengths)?;
        write!(f, "{}", self.shapes)
    }
}

fn row(f: &mut fmt::Formatter<'_>, name: &str, [a, b, c, d]: [u64; 4]) -> fmt::Result {
    writeln!(f, "{name:8} {a:12} {b:12} {c:12} {d:12}")
}
