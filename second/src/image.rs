//! A machine as 74 bytes: R0 to R15 as little-endian words, N Z C V Q a byte each, the count of
//! waiting conditions, and four conditions, 0 past the count.

use crate::machine::Machine;
use crate::waiting::Waiting;

pub const BYTES: usize = 74;
const FLAGS: usize = 64;
const COUNT: usize = 69;
const CONDITIONS: usize = 70;

pub fn encode(machine: &Machine) -> [u8; BYTES] {
    let mut image = [0; BYTES];
    for (bytes, register) in image.chunks_exact_mut(4).zip(machine.registers) {
        bytes.copy_from_slice(&register.to_le_bytes());
    }
    let flags = [machine.n, machine.z, machine.c, machine.v, machine.q];
    image[FLAGS..COUNT].copy_from_slice(&flags.map(u8::from));
    let waiting = machine.waiting.conditions();
    image[COUNT] = waiting.len() as u8;
    image[CONDITIONS..CONDITIONS + waiting.len()].copy_from_slice(waiting);
    image
}

/// None for another length, a flag byte other than 0 and 1, a count above 4, or a condition past
/// the count that is not 0.
pub fn decode(image: &[u8]) -> Option<Machine> {
    let image: &[u8; BYTES] = image.try_into().ok()?;
    let mut machine = Machine::FRESH;
    for (register, bytes) in machine.registers.iter_mut().zip(image.chunks_exact(4)) {
        *register = u32::from_le_bytes(bytes.try_into().ok()?);
    }
    machine.n = flag(image[FLAGS])?;
    machine.z = flag(image[FLAGS + 1])?;
    machine.c = flag(image[FLAGS + 2])?;
    machine.v = flag(image[FLAGS + 3])?;
    machine.q = flag(image[FLAGS + 4])?;
    let conditions = &image[CONDITIONS..];
    let count = usize::from(image[COUNT]);
    let waiting = conditions.get(..count)?;
    if conditions[count..].iter().any(|&condition| condition != 0) {
        return None;
    }
    machine.waiting = Waiting::new(waiting)?;
    Some(machine)
}

fn flag(byte: u8) -> Option<bool> {
    match byte {
        0 => Some(false),
        1 => Some(true),
        _ => None,
    }
}
