//! The subject, by its case.

use super::cases::Case;
use crate::prng::Prng;
use crate::random_record::{bind, record_of};
use crate::table::REGISTERS;
use second::judge::judge;

const TRIES: usize = 200;
const AL: u8 = 14;

/// At a spot where so many conditions wait, without the spare registers; None where chance gives none.
pub fn record(prng: &mut Prng, case: &Case, waiting: usize, spare: &[u8]) -> Option<Vec<u8>> {
    (0..TRIES).find_map(|_| {
        let mut record = record_of(prng, case.kind);
        case.make(&mut record);
        match &mut record[..] {
            [0x10, _, _, _, _, list @ ..] => leave_out(list, spare),
            [0x11, _, _, condition, ..] if waiting > 0 => *condition = AL,
            _ => (),
        }
        bind(&mut record);
        let places = REGISTERS[usize::from(case.kind) - 1];
        let free = places.iter().all(|&place| !spare.contains(&record[place]));
        (free && case.holds(&record) && judge(&record, waiting) == 0).then_some(record)
    })
}

fn leave_out(list: &mut [u8], spare: &[u8]) {
    for &register in spare {
        list[usize::from(register / 8)] &= !(1 << (register % 8));
    }
}
