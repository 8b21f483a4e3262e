//! What two answers do not have in common.

use super::Lent;
use crate::{hex, image};

/// So many bytes of memory that differ are told.
const TOLD: usize = 8;

/// A line for each part that differs, with the names of those who answered.
pub struct Apart<'a> {
    names: [&'a str; 2],
    pub lines: Vec<String>,
}

impl<'a> Apart<'a> {
    pub fn new(names: [&'a str; 2]) -> Apart<'a> {
        Apart { names, lines: Vec::new() }
    }

    pub fn values<T: PartialEq + ToString>(&mut self, what: &str, values: [T; 2]) {
        let ([one, other], [name, other_name]) = (&values, self.names);
        if one != other {
            let (one, other) = (one.to_string(), other.to_string());
            self.lines.push(format!("{what}: {name} {one}, {other_name} {other}"));
        }
    }

    pub fn lent(&mut self, lent: [&Lent; 2]) {
        self.images(lent.map(|lent| &lent.image[..]));
        let [one, other] = lent.map(|lent| &lent.memory);
        self.values("bytes of memory", [one.len(), other.len()]);
        let bytes = one.iter().zip(other).enumerate();
        for (at, (one, other)) in bytes.filter(|(_, (one, other))| one != other).take(TOLD) {
            let values = [one, other].map(|byte| format!("{byte:02X}"));
            self.values(&format!("memory byte {at}"), values);
        }
    }

    fn images(&mut self, images: [&[u8]; 2]) {
        match (images[0].try_into(), images[1].try_into()) {
            (Ok(one), Ok(other)) => {
                for (one, other) in image::parts(one).into_iter().zip(image::parts(other)) {
                    self.values(&one.0, [one.1, other.1]);
                }
            }
            _ => self.values("image", images.map(hex::line)),
        }
    }
}
