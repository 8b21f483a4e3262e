//! What the program of paper 01 writes for the bytes it reads.

use crate::check::check;
use crate::machine::{Machine, PC, SP};
use crate::number::{DONE, UNFIT};
use crate::run::run;
use std::fmt::Write;

const LIMIT: usize = 32_768;
const BASE: u32 = 0x1000;
const MEMORY_BYTES: usize = 32_768;
const MEMORY_BASE: u32 = 0x2000_0000;
const STACK: u32 = 0x2000_8000;
const BUDGET: u32 = 1_000_000;

pub fn program(listing: &[u8]) -> String {
    program_within(listing, BUDGET)
}

/// With another budget than paper 01's.
pub fn program_within(listing: &[u8], budget: u32) -> String {
    // "a listing of at most 32,768 bytes (more is number 1)"
    let (number, place) = if listing.len() > LIMIT { (UNFIT, 0) } else { check(listing, BASE) };
    if number != DONE {
        return format!("check {number} at {place}\n");
    }
    let mut machine = Machine::FRESH;
    machine.registers[usize::from(SP)] = STACK;
    machine.registers[usize::from(PC)] = BASE;
    let mut memory = vec![0; MEMORY_BYTES];
    let ran = run(&mut machine, listing, BASE, &mut memory, MEMORY_BASE, budget);
    format!("end {} steps {}\n{}", ran.number, ran.count, state(&machine))
}

fn state(machine: &Machine) -> String {
    let mut text = String::new();
    for (i, value) in machine.registers.iter().enumerate() {
        let _ = writeln!(text, "R{i} {value:08X}");
    }
    let flags = [machine.n, machine.z, machine.c, machine.v, machine.q].map(u8::from);
    let [n, z, c, v, q] = flags;
    let _ = writeln!(text, "NZCVQ {n}{z}{c}{v}{q}");
    text
}
