//! Steps that are the same in every run, and each of which hangs on one byte.

use super::Comparison;
use crate::image::Image;
use crate::image_bytes;
use crate::question::step::Question;
use crate::stock::Stock;
use crate::table::{form_place, REGISTERS};
use crate::Outcome;

const NOP: [u8; 2] = [0x15, 0];
const BASE: u32 = 0x2000_0000;
const MEMORY: usize = 64;

/// A good machine, from which every number that the record's bytes alone give is given.
fn machine() -> Image {
    let mut image = Image::FRESH;
    for (register, number) in image.registers.iter_mut().zip(0..) {
        *register = BASE + 4 * number;
    }
    image
}

fn question(image: Vec<u8>, record: &[u8]) -> Question {
    Question { image, record: record.to_vec(), base: BASE, memory: vec![0x5A; MEMORY] }
}

/// Every value of every byte of the image past its registers.
pub fn images(comparison: &mut Comparison) -> Outcome {
    image_bytes::sweep(machine(), |image| comparison.put(&question(image, &NOP)))
}

/// Each record of the stock with each form, at each shorter length and up to two bytes longer; every
/// third also with all that is no register in each place of one.
pub fn records(comparison: &mut Comparison, stock: &Stock) -> Outcome {
    let image = machine().bytes();
    let mut put = |record: &[u8]| comparison.put(&question(image.clone(), record));
    for record in stock {
        let mut near = record.clone();
        if let Some(place) = form_place(record) {
            for form in 0..=4 {
                near[place] = form;
                put(&near)?;
            }
        }
        let longer = [&record[..], &[0, 1]].concat();
        for length in (0..=longer.len()).filter(|&length| length != record.len()) {
            put(&longer[..length])?;
        }
    }
    for (kind, places) in (1..).zip(REGISTERS) {
        let third = stock.iter().filter(|record| record[0] == kind).step_by(3);
        for (record, &at) in third.flat_map(|record| places.iter().map(move |at| (record, at))) {
            let mut near = record.clone();
            for value in 16..=255 {
                near[at] = value;
                put(&near)?;
            }
        }
    }
    Ok(())
}
