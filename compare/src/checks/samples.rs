//! The sample listings, and mistakes in them.

use super::{Comparison, BASE};
use crate::prng::Prng;
use crate::{random_record, samples, Outcome};

const MISTAKES: usize = 1_000;

pub fn all(comparison: &mut Comparison, prng: &mut Prng) -> Outcome {
    for sample in samples::samples()? {
        let listing = sample.listing;
        if comparison.put(&listing, BASE)? != 0 {
            return Err(format!("{}: a sample listing is accepted, this is not", sample.name));
        }
        for length in 0..listing.len() {
            comparison.put(&listing[..length], BASE)?;
        }
        for _ in 0..MISTAKES {
            let mut listing = listing.clone();
            random_record::damage(prng, &mut listing);
            comparison.put(&listing, BASE)?;
        }
    }
    Ok(())
}
