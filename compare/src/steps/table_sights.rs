//! What must have been among the steps of kind 16, for TBB and for TBH.

use crate::question::step::{Answer, Question};
use crate::table::TABLE_BRANCH;
use second::image::decode;
use std::fmt;

const NAMES: [&str; 2] = ["TBB", "TBH"];
const PC: usize = 15;
const UNFIT: u32 = 1;
const TOP: u64 = 1 << 32;
/// Of each case.
const LEAST: u64 = 1_000;

/// A step of kind 16 from a good machine and fit memory.
struct Look {
    halves: bool,
    rn: u8,
    rm: u8,
    /// R15.
    address: u64,
    /// What Rm holds.
    index: u32,
    /// Rn plus Rm, or plus twice that modulo 2^32, itself not taken modulo 2^32.
    sum: u64,
    /// Where memory begins and ends.
    memory: [u64; 2],
    waiting: usize,
    /// Whether no condition waits or the first passes.
    passes: bool,
    number: u32,
    /// R15 afterwards.
    after: u64,
}

impl Look {
    fn new(question: &Question, answer: &Answer) -> Option<Look> {
        let (op, rn, rm) = match question.record[..] {
            [TABLE_BRANCH, op @ 0..=1, 2, rn @ 0..=15, rm @ 0..=15] => (op, rn, rm),
            _ => return None,
        };
        let machine = decode(&question.image)?;
        let base = u64::from(question.base);
        let index = machine.registers[usize::from(rm)];
        let sum = u64::from(machine.operand(rn)) + u64::from(index << op);
        (answer.number != UNFIT).then(|| Look {
            halves: op == 1,
            rn,
            rm,
            address: machine.address().into(),
            index,
            sum,
            memory: [base, base + question.memory.len() as u64],
            waiting: machine.waiting.len(),
            passes: machine.waiting.first().map_or(true, |first| machine.passes(first)),
            number: answer.number,
            after: crate::image::register(&answer.lent.image, PC).into(),
        })
    }

    /// Gone where the table says.
    fn went(&self) -> bool {
        self.number == 0 && self.passes
    }

    /// Gone on to the next record.
    fn stayed(&self) -> bool {
        self.number == 0 && !self.passes
    }

    /// From the first address of the entry.
    fn at(&self) -> u64 {
        self.sum % TOP
    }

    /// Past the last address of the entry, not modulo 2^32.
    fn past(&self) -> u64 {
        self.at() + if self.halves { 2 } else { 1 }
    }

    fn is_inside(&self) -> bool {
        self.memory[0] <= self.at() && self.past() <= self.memory[1]
    }

    fn outside(&self) -> bool {
        self.number == 6
    }

    /// Out of the target, which is "address + 4 plus twice the entry" modulo 2^32.
    fn entry(&self) -> u64 {
        (self.after + TOP - (self.address + 4) % TOP) % TOP / 2
    }

    fn highest(&self) -> u64 {
        if self.halves {
            0xFFFF
        } else {
            0xFF
        }
    }

    /// Not modulo 2^32.
    fn target(&self) -> u64 {
        self.address + 4 + 2 * self.entry()
    }

    fn goes_by_15(&self, two: u64) -> bool {
        self.went() && self.rn == 15 && self.address % 4 == two
    }
}

type Sight = (&'static str, fn(&Look) -> bool);

const SIGHTS: [Sight; 37] = [
    ("gone from Rn 0 to 12", |look| look.went() && look.rn <= 12 && look.rn != look.rm),
    ("from Rn 14", |look| look.went() && look.rn == 14),
    ("from Rn 15 at 0 modulo 4", |look| look.goes_by_15(0)),
    ("from Rn 15 at 2 modulo 4", |look| look.goes_by_15(2)),
    ("with Rm 14", |look| look.went() && look.rm == 14),
    ("with Rn = Rm", |look| look.went() && look.rn == look.rm),
    ("at the first byte of memory", |look| look.went() && look.at() == look.memory[0]),
    ("up to the last", |look| look.went() && look.past() == look.memory[1]),
    ("up to the last but one", |look| look.went() && look.past() + 1 == look.memory[1]),
    ("at an even address", |look| look.went() && look.at() % 2 == 0),
    ("at an odd one", |look| look.went() && look.at() % 2 == 1),
    ("by a sum past 2^32", |look| look.went() && look.sum >= TOP),
    ("by an index of bit 31", |look| look.went() && look.index >> 31 == 1),
    ("by entry 0", |look| look.went() && look.entry() == 0),
    ("by the highest entry", |look| look.went() && look.entry() == look.highest()),
    ("by one of top bit alone", |look| look.went() && look.entry() == look.highest() / 2 + 1),
    ("to a target past 2^32", |look| look.went() && look.target() > TOP),
    ("to 2^32", |look| look.went() && look.target() == TOP),
    ("to just below it", |look| look.went() && look.target() == TOP - 2),
    ("where the next address is past 2^32", |look| look.went() && look.address + 4 >= TOP),
    ("with nothing waiting", |look| look.went() && look.waiting == 0),
    ("with one that passes", |look| look.went() && look.waiting == 1),
    ("on with one that fails", |look| look.stayed() && look.is_inside()),
    ("there with the entry not in memory", |look| look.stayed() && !look.is_inside()),
    ("there past 2^32", |look| look.stayed() && look.address + 4 >= TOP),
    ("6 just before memory", |look| look.outside() && look.past() == look.memory[0]),
    ("just past it", |look| look.outside() && look.at() == look.memory[1]),
    ("elsewhere", |look| {
        look.outside() && (look.past() < look.memory[0] || look.at() > look.memory[1])
    }),
    ("of 0 bytes", |look| look.outside() && look.memory[0] == look.memory[1]),
    ("from Rn 15 without memory there", |look| look.outside() && look.rn == 15),
    ("with one waiting", |look| look.outside() && look.waiting == 1),
    ("4 with more that pass first", |look| look.number == 4 && look.passes),
    ("that fail first", |look| look.number == 4 && !look.passes),
    ("with the entry not in memory", |look| look.number == 4 && !look.is_inside()),
    ("3 for Rn 13", |look| look.number == 3 && look.rn == 13),
    ("for Rm 13 or 15", |look| look.number == 3 && matches!(look.rm, 13 | 15)),
    ("with more than one waiting", |look| look.number == 3 && look.waiting > 1),
];

/// Of two bytes some can be in memory and some not.
const OF_HALVES: [Sight; 5] = [
    ("unaligned from Rn and Rm that differ", |look| {
        look.went() && look.at() % 2 == 1 && look.rn != look.rm
    }),
    ("6 with the first byte alone before memory", |look| {
        look.outside() && look.past() == look.memory[0] + 1
    }),
    ("with the second alone past it", |look| look.outside() && look.at() + 1 == look.memory[1]),
    ("across 2^32 with memory up to that", |look| {
        look.outside() && look.past() > TOP && look.memory[1] == TOP
    }),
    ("across it with memory from 0", |look| {
        look.outside() && look.past() > TOP && look.memory[0] == 0
    }),
];

/// Counts of what was seen, by op, then of what TBH alone can show.
pub struct Tables {
    seen: [[u64; SIGHTS.len()]; NAMES.len()],
    of_halves: [u64; OF_HALVES.len()],
}

impl Tables {
    pub fn new() -> Tables {
        Tables { seen: [[0; SIGHTS.len()]; NAMES.len()], of_halves: [0; OF_HALVES.len()] }
    }

    /// With the answer that both sides gave.
    pub fn see(&mut self, question: &Question, answer: &Answer) {
        let look = match Look::new(question, answer) {
            Some(look) => look,
            None => return,
        };
        let counts = &mut self.seen[usize::from(look.halves)];
        for (count, (_, sees)) in counts.iter_mut().zip(SIGHTS) {
            *count += u64::from(sees(&look));
        }
        for (count, (_, sees)) in self.of_halves.iter_mut().zip(OF_HALVES) {
            *count += u64::from(look.halves && sees(&look));
        }
    }

    fn lines(&self) -> Vec<(String, u64)> {
        let mut lines = Vec::new();
        for (op, counts) in NAMES.iter().zip(&self.seen) {
            for ((name, _), &count) in SIGHTS.iter().zip(counts) {
                lines.push((format!("{op} {name}"), count));
            }
        }
        for ((name, _), count) in OF_HALVES.iter().zip(self.of_halves) {
            lines.push((format!("TBH {name}"), count));
        }
        lines
    }

    pub fn gaps(&self) -> Vec<String> {
        let few = self.lines().into_iter().filter(|&(_, count)| count < LEAST);
        few.map(|(name, count)| format!("{name}: {count} times")).collect()
    }
}

impl fmt::Display for Tables {
    fn fmt(&self, f: &mut fmt::Formatter<'_>) -> fmt::Result {
        let lines: Vec<String> =
            self.lines().iter().map(|(name, count)| format!("{name} {count}")).collect();
        writeln!(f, "table branches: {}", lines.join(", "))
    }
}
