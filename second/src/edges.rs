//! The table of docs/EDGES.md: edge values put through every operation of the arithmetic.

use crate::compute;
use crate::record::{Bits, Extend, Field, Long, Product, Shift};
use crate::word;
use std::fmt::Write;

const W: [u32; 6] = [0, 1, 0x7FFF_FFFF, 0x8000_0000, 0xFFFF_FFFF, 0xA5C3_0F96];
const A: [u32; 9] = [0, 1, 31, 32, 33, 64, 255, 256, 0xFFFF_FFFF];
const B: [bool; 2] = [false, true];
const K: [u32; 15] = [
    0xFF, 0x100, 0x1FE, 0x1FF, 0x3FC0, 0xFF00, 0x1FE00, 0xFF_0000, 0x7F80_0000, 0xFF00_0000,
    0x00AB_00AB, 0xAB00_AB00, 0xABAB_ABAB, 0x00AB_00AC, 0xF000_000F,
];
const F: [(u32, u32); 6] = [(0, 1), (0, 32), (1, 31), (8, 12), (16, 16), (31, 1)];
const L: [u16; 5] = [0, 1, 0x8000, 0xFFFF, 0xA5C3];
const P: [(u32, u32); 4] =
    [(0, 0), (1, 0x8000_0000), (0xFFFF_FFFF, 0x7FFF_FFFF), (0xFFFF_FFFF, 0xFFFF_FFFF)];

/// A cell of a line: "a word is eight hex digits in upper case .. a truth is `0` or `1`".
enum Cell {
    Word(u32),
    Truth(bool),
}

impl From<u32> for Cell {
    fn from(word: u32) -> Cell {
        Cell::Word(word)
    }
}

impl From<bool> for Cell {
    fn from(truth: bool) -> Cell {
        Cell::Truth(truth)
    }
}

impl std::fmt::Display for Cell {
    fn fmt(&self, f: &mut std::fmt::Formatter<'_>) -> std::fmt::Result {
        match self {
            Cell::Word(word) => write!(f, "{word:08X}"),
            Cell::Truth(truth) => write!(f, "{}", u8::from(*truth)),
        }
    }
}

struct Table(String);

impl Table {
    fn line(&mut self, name: &str, operands: &[Cell], results: &[Cell]) {
        self.0.push_str(name);
        for cell in operands {
            let _ = write!(self.0, " {cell}");
        }
        self.0.push_str(" =");
        for cell in results {
            let _ = write!(self.0, " {cell}");
        }
        self.0.push('\n');
    }
}

macro_rules! cells {
    ($($cell:expr),*) => { &[$(Cell::from($cell)),*] };
}

fn pairs<X: Copy, Y: Copy>(xs: &[X], ys: &[Y]) -> Vec<(X, Y)> {
    xs.iter().flat_map(|&x| ys.iter().map(move |&y| (x, y))).collect()
}

/// "The groups come in the order of the table".
pub fn table() -> String {
    let mut t = Table(String::new());
    sums(&mut t);
    logic(&mut t);
    shifts(&mut t);
    constants(&mut t);
    bits(&mut t);
    products(&mut t);
    long_products(&mut t);
    quotients(&mut t);
    saturations(&mut t);
    fields(&mut t);
    extensions(&mut t);
    addresses(&mut t);
    lists(&mut t);
    t.0
}

fn sums(t: &mut Table) {
    type Sum = fn(u32, u32, bool) -> (u32, bool, bool);
    let group: [(&str, Sum); 2] = [("SUM", word::sum), ("DIFF", word::difference)];
    for (name, f) in group {
        for ((x, y), carry) in pairs(&pairs(&W, &W), &B) {
            let (value, c, v) = f(x, y, carry);
            t.line(name, cells![x, y, carry], cells![value, c, v]);
        }
    }
}

fn logic(t: &mut Table) {
    type Logic = fn(u32, u32) -> u32;
    let group: [(&str, Logic); 5] = [
        ("AND", |x, y| x & y),
        ("ORR", |x, y| x | y),
        ("EOR", |x, y| x ^ y),
        ("BIC", |x, y| x & !y),
        ("ORN", |x, y| x | !y),
    ];
    for (name, f) in group {
        for (x, y) in pairs(&W, &W) {
            t.line(name, cells![x, y], cells![f(x, y)]);
        }
    }
    for x in W {
        t.line("MVN", cells![x], cells![!x]);
    }
}

fn shifts(t: &mut Table) {
    let group =
        [("LSL", Shift::Lsl), ("LSR", Shift::Lsr), ("ASR", Shift::Asr), ("ROR", Shift::Ror)];
    for (name, shift) in group {
        for ((x, amount), carry) in pairs(&pairs(&W, &A), &B) {
            let (value, c) = compute::shifted(shift, x, amount, carry);
            t.line(name, cells![x, amount, carry], cells![value, c]);
        }
    }
    for (x, carry) in pairs(&W, &B) {
        let (value, c) = compute::shifted(Shift::Rrx, x, 0, carry);
        t.line("RRX", cells![x, carry], cells![value, c]);
    }
}

fn constants(t: &mut Table) {
    for (k, carry) in pairs(&[&W[..], &K[..]].concat(), &B) {
        let (allowed, shifted) = (word::is_constant(k), word::is_high_shifted_byte(k));
        t.line("CONST", cells![k, carry], cells![allowed, shifted, word::constant_carry(k, carry)]);
    }
}

fn bits(t: &mut Table) {
    let group = [
        ("CLZ", Bits::Clz),
        ("REV", Bits::Rev),
        ("REV16", Bits::Rev16),
        ("REVSH", Bits::Revsh),
        ("RBIT", Bits::Rbit),
    ];
    for (name, op) in group {
        for x in W {
            t.line(name, cells![x], cells![compute::bits(op, x)]);
        }
    }
}

fn products(t: &mut Table) {
    for (x, y) in pairs(&W, &W) {
        t.line("MUL", cells![x, y], cells![compute::product(Product::Mul, x, y, 0)]);
    }
    for (name, op) in [("MLA", Product::Mla), ("MLS", Product::Mls)] {
        for ((x, y), a) in pairs(&pairs(&W, &W), &W) {
            t.line(name, cells![x, y, a], cells![compute::product(op, x, y, a)]);
        }
    }
}

fn long_products(t: &mut Table) {
    for (name, op) in [("UMULL", Long::Umull), ("SMULL", Long::Smull)] {
        for (x, y) in pairs(&W, &W) {
            let (low, high) = word::split(compute::long(op, x, y, 0));
            t.line(name, cells![x, y], cells![low, high]);
        }
    }
    for (name, op) in [("UMLAL", Long::Umlal), ("SMLAL", Long::Smlal)] {
        for ((x, y), (l, h)) in pairs(&pairs(&W, &W), &P) {
            let (low, high) = word::split(compute::long(op, x, y, word::join(l, h)));
            t.line(name, cells![x, y, l, h], cells![low, high]);
        }
    }
}

fn quotients(t: &mut Table) {
    for (name, unsigned) in [("UDIV", true), ("SDIV", false)] {
        for (x, y) in pairs(&W, &W) {
            t.line(name, cells![x, y], cells![compute::divide(unsigned, x, y)]);
        }
    }
}

fn saturations(t: &mut Table) {
    for (name, unsigned, widths) in
        [("SSAT", false, [1, 16, 31, 32]), ("USAT", true, [0, 1, 16, 31])]
    {
        for (x, bits) in pairs(&W, &widths) {
            let (value, saturated) = compute::saturate(unsigned, x, bits);
            t.line(name, cells![x, bits], cells![value, saturated]);
        }
    }
}

fn fields(t: &mut Table) {
    // BFC works on Rd, the two extractions on Rn.
    for (name, op) in [("BFC", Field::Bfc), ("SBFX", Field::Sbfx), ("UBFX", Field::Ubfx)] {
        for (x, (lsb, width)) in pairs(&W, &F) {
            t.line(name, cells![x, lsb, width], cells![compute::field(op, x, x, lsb, width)]);
        }
    }
    for ((d, x), (lsb, width)) in pairs(&pairs(&W, &W), &F) {
        t.line(
            "BFI",
            cells![d, x, lsb, width],
            cells![compute::field(Field::Bfi, d, x, lsb, width)],
        );
    }
}

fn extensions(t: &mut Table) {
    let group = [
        ("SXTB", Extend::Sxtb),
        ("SXTH", Extend::Sxth),
        ("UXTB", Extend::Uxtb),
        ("UXTH", Extend::Uxth),
    ];
    for (name, op) in group {
        for (x, rotation) in pairs(&W, &[0u8, 8, 16, 24]) {
            t.line(name, cells![x, u32::from(rotation)], cells![compute::extend(op, x, rotation)]);
        }
    }
}

fn addresses(t: &mut Table) {
    type Address = fn(u32) -> u32;
    let group: [(&str, Address); 3] =
        [("EVEN", word::even), ("LINK", word::link), ("BASE", word::base)];
    for (name, f) in group {
        for x in W {
            t.line(name, cells![x], cells![f(x)]);
        }
    }
    for (x, by) in pairs(&W, &W) {
        t.line("MOVED", cells![x, by], cells![word::moved(x, by as i32)]);
    }
}

fn lists(t: &mut Table) {
    for list in L {
        t.line("COUNT", cells![u32::from(list)], cells![word::count(list)]);
    }
    for (list, register) in pairs(&L, &[0u8, 1, 7, 15]) {
        let cells = cells![u32::from(list), u32::from(register)];
        t.line("HOLDS", cells, cells![word::holds(list, register)]);
    }
}
