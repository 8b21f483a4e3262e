//! A program while it is written: its records, and what is filled in once it is known where each
//! stands.

use crate::checks::listing::{end_of, lead, spots, Records, Spot, COMPARE_BRANCH};
use crate::prng::Prng;

/// A place in the program, perhaps one that is not reached yet.
pub type Label = usize;

/// Where a register or a word of memory leads.
#[derive(Clone, Copy)]
pub enum To {
    Label(Label),
    /// A record in a block, if there is one.
    Inside,
    /// The second half of a record, if one has 4 machine bytes.
    Between,
    BeforeBase,
    PastEnd,
    Anywhere(u32),
}

#[derive(Clone, Copy)]
pub struct Target {
    pub to: To,
    pub odd: bool,
}

/// What a record still lacks.
pub enum Lack {
    /// The offset of a direct branch.
    Offset(Label),
    /// Half a word, for MOVW or MOVT: a target, or how far it is from R15 as an operand of the
    /// record at the label.
    Half { target: Target, from: Option<Label>, high: bool },
    /// The offset from R15 to a word of the table.
    Literal(usize),
}

#[derive(Default)]
pub struct Writer {
    pub records: Records,
    /// The words that loads take addresses from.
    pub table: Vec<Target>,
    labels: Vec<usize>,
    lacking: Vec<(usize, Lack)>,
}

/// Where listing and table are put.
pub struct Setting {
    pub base: u32,
    pub table: u32,
}

/// "In 2 machine bytes, as CBZ is."
const CLZ: [u8; 5] = [0x06, 0, 0, 1, 2];

impl Writer {
    pub fn push(&mut self, record: &[u8]) {
        self.records.push(record.to_vec());
    }

    pub fn push_lacking(&mut self, record: &[u8], lack: Lack) {
        self.lacking.push((self.records.len(), lack));
        self.push(record);
    }

    /// A label that stands here until it is put elsewhere.
    pub fn label(&mut self) -> Label {
        self.labels.push(self.records.len());
        self.labels.len() - 1
    }

    pub fn put_here(&mut self, label: Label) {
        self.labels[label] = self.records.len();
    }

    /// One of the labels so far.
    pub fn some_label(&self, prng: &mut Prng) -> Option<Label> {
        match self.labels.len() as u32 {
            0 => None,
            count => Some(prng.below(count) as usize),
        }
    }

    /// A word of the table more: its index.
    pub fn entry(&mut self, target: Target) -> usize {
        self.table.push(target);
        self.table.len() - 1
    }

    /// The records with nothing lacking, and the words of the table.
    pub fn finish(mut self, prng: &mut Prng, setting: &Setting) -> (Records, Vec<u32>) {
        let sites = Sites { spots: spots(&self.records), end: end_of(&self.records) };
        let (labels, table) = (self.labels, self.table);
        let at = |label: Label| sites.at(labels[label]);
        let mut word = |target: Target| {
            let address = match target.to {
                To::Label(label) => setting.base.wrapping_add(at(label) as u32),
                to => sites.stray(prng, to, setting.base),
            };
            address & !1 | u32::from(target.odd)
        };
        for (index, lack) in self.lacking {
            let (from, record) = (sites.at(index), &mut self.records[index]);
            match lack {
                Lack::Offset(label) => direct(record, from, at(label)),
                Lack::Half { target, from, high } => {
                    let here =
                        from.map_or(0, |label| setting.base.wrapping_add(at(label) as u32 + 4));
                    half(record, word(target).wrapping_sub(here), high);
                }
                Lack::Literal(entry) => {
                    let base = setting.base.wrapping_add(from as u32 + 4) & !2;
                    let offset = setting.table + 4 * entry as u32;
                    literal(record, offset.wrapping_sub(base));
                }
            }
        }
        (self.records, table.into_iter().map(word).collect())
    }
}

/// Where the records are, from the base.
struct Sites {
    spots: Vec<Spot>,
    end: i64,
}

impl Sites {
    fn at(&self, index: usize) -> i64 {
        self.spots.get(index).map_or(self.end, |spot| spot.at)
    }

    /// An address where no run may go on, mostly.
    fn stray(&self, prng: &mut Prng, to: To, base: u32) -> u32 {
        let (spots, by) = (&self.spots, 2 + 2 * prng.below(4));
        let inside: Vec<i64> = spots.iter().filter(|spot| !spot.outside).map(|s| s.at).collect();
        let after = spots.iter().skip(1).map(|spot| spot.at).chain([self.end]);
        let long = spots.iter().zip(after).filter(|(spot, after)| after - spot.at == 4);
        let between: Vec<i64> = long.map(|(spot, _)| spot.at + 2).collect();
        let past = base.wrapping_add(self.end as u32 + by);
        match to {
            To::Inside if !inside.is_empty() => base.wrapping_add(prng.pick(&inside) as u32),
            To::Between if !between.is_empty() => base.wrapping_add(prng.pick(&between) as u32),
            To::BeforeBase => base.wrapping_sub(by),
            To::Anywhere(address) => address,
            _ => past,
        }
    }
}

/// A CBZ that cannot reach its target makes room.
fn direct(record: &mut Vec<u8>, from: i64, target: i64) {
    let reach = from + 4..=from + 4 + 126;
    if record[0] == COMPARE_BRANCH && !reach.contains(&target) {
        *record = CLZ.to_vec();
    } else {
        lead(record, from, target);
    }
}

/// `05, op, form, Rd, number (2)`.
fn half(record: &mut [u8], word: u32, high: bool) {
    let [a, b, c, d] = word.to_le_bytes();
    record[4..].copy_from_slice(&if high { [c, d] } else { [a, b] });
}

/// `0D, op, form, Rt, Rn, mode, offset (2, signed)`; one that is too far is cut to what is near.
fn literal(record: &mut [u8], offset: u32) {
    let near = (offset as i32).clamp(-4095, 4095) as i16;
    record[6..].copy_from_slice(&near.to_le_bytes());
}
