//! What must have been among the steps of the runs.

use super::trace::Look;

impl Look<'_> {
    fn went(&self) -> bool {
        self.after.address() != self.next
    }

    fn went_back(&self) -> bool {
        self.after.address() <= self.before.address()
    }

    fn in_block(&self) -> bool {
        !self.before.waiting.is_empty()
    }

    /// "If a condition is waiting, the first one rules".
    fn passed(&self) -> bool {
        self.before.waiting.first().map_or(true, |condition| self.before.passes(condition))
    }

    fn branch_with_condition(&self) -> bool {
        matches!(self.record, [0x11, 0, _, 0..=13, ..])
    }

    fn compare_branch(&self, op: u8) -> bool {
        self.record[..2] == [0x13, op]
    }

    /// A load of kind 10 with 15 in its list, and its op.
    fn load_of_15(&self) -> Option<(u8, u8)> {
        match *self.record {
            [0x10, op, _, rn, _, _, list] if list & 0x80 != 0 && self.passed() => Some((op, rn)),
            _ => None,
        }
    }
}

type Sight = (&'static str, fn(&Look) -> bool);

pub const SIGHTS: [Sight; 32] = [
    ("loop", |look| look.branch_with_condition() && look.went() && look.went_back()),
    ("branch on", |look| look.branch_with_condition() && look.went() && !look.went_back()),
    ("branch not taken", |look| look.branch_with_condition() && !look.went()),
    ("CBZ taken", |look| look.compare_branch(0) && look.went()),
    ("CBZ not taken", |look| look.compare_branch(0) && !look.went()),
    ("CBNZ taken", |look| look.compare_branch(1) && look.went()),
    ("CBNZ not taken", |look| look.compare_branch(1) && !look.went()),
    ("BL", |look| matches!(look.record, [0x11, 1, ..]) && look.passed()),
    ("BX R14", |look| matches!(look.record, [0x12, 0, _, 14]) && look.passed()),
    ("BX", |look| matches!(look.record, [0x12, 0, _, 0..=12]) && look.passed()),
    ("BLX", |look| matches!(look.record, [0x12, 1, ..]) && look.passed()),
    ("MOV to R15", |look| matches!(look.record, [0x01, 10, _, 15, ..]) && look.passed()),
    ("ADD to R15", |look| matches!(look.record, [0x01, 0, _, 15, ..]) && look.passed()),
    ("LDR to R15", |look| matches!(look.record, [0x0D, 0, _, 15, 0..=12, ..]) && look.passed()),
    ("LDR to R15 off the stack", |look| {
        matches!(look.record, [0x0D, 0, _, 15, 13, 2, ..]) && look.passed()
    }),
    ("LDR to R15 by index", |look| matches!(look.record, [0x0E, 0, _, 15, ..]) && look.passed()),
    ("LDR to R15 from R15", |look| {
        matches!(look.record, [0x0D, 0, _, 15, 15, ..]) && look.passed()
    }),
    ("POP to R15", |look| look.load_of_15() == Some((0, 13))),
    ("LDMIA to R15", |look| matches!(look.load_of_15(), Some((0, 0..=12)))),
    ("LDMDB to R15", |look| matches!(look.load_of_15(), Some((1, _)))),
    ("PUSH", |look| matches!(look.record, [0x10, 3, _, 13, 1, ..]) && look.passed()),
    ("load", |look| matches!(look.record, [0x0D | 0x0E, 0..=4, ..]) && look.passed()),
    ("store", |look| matches!(look.record, [0x0D | 0x0E, 5..=7, ..]) && look.passed()),
    ("literal", |look| matches!(look.record, [0x0D, _, _, 0..=12, 15, ..]) && look.passed()),
    ("literal of two", |look| matches!(look.record, [0x0F, _, _, _, _, 15, ..]) && look.passed()),
    ("block", |look| matches!(look.record, [0x14, _, _, _, 0])),
    ("block with else", |look| matches!(look.record, [0x14, _, _, _, 1..=7])),
    ("passed in a block", |look| look.in_block() && look.passed()),
    ("failed in a block", |look| look.in_block() && !look.passed()),
    ("went out of a block", |look| look.in_block() && look.went()),
    ("shift by Rs above 255", |look| {
        matches!(*look.record, [0x03, .., rs] if look.before.registers[usize::from(rs)] > 255)
            && look.passed()
    }),
    ("R13 and R14 saved", |look| matches!(look.record, [0x0D, 5, _, 13 | 14, ..])),
];
