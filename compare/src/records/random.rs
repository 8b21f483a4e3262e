//! Records at random: mostly as paper 01's table and order 1 of paper 02 have them, then sometimes
//! damaged.

use super::answers::Comparison;
use crate::prng::Prng;
use crate::table::{FILLER, TABLE_BRANCH};
use crate::{random_record, Outcome};

const SEED: u64 = 0x5EC0_4D01;
const RECORDS: usize = 200_000;
/// Of kinds 16 and 17.
const LATER: usize = 100_000;

pub fn records(comparison: &mut Comparison) -> Outcome {
    let mut prng = Prng::new(SEED);
    for _ in 0..RECORDS {
        let record = random_record::record(&mut prng);
        put(comparison, &mut prng, record)?;
    }
    for _ in 0..LATER {
        let kind = prng.pick(&[TABLE_BRANCH, FILLER]);
        let record = random_record::record_of(&mut prng, kind);
        put(comparison, &mut prng, record)?;
    }
    Ok(())
}

fn put(comparison: &mut Comparison, prng: &mut Prng, mut record: Vec<u8>) -> Outcome {
    if !prng.once_in(8) {
        random_record::bind(&mut record);
    }
    if prng.once_in(4) {
        random_record::damage(prng, &mut record);
    }
    comparison.bytes(&record)
}
