//! Conditions, and the list of those that wait.

pub type Condition = u8;
/// The last of "EQ NE CS CC MI PL VS VC HI LS GE LT GT LE AL".
pub const AL: Condition = 14;

/// "a list of zero to four waiting conditions". Past the count all is 0, so equal lists are equal
/// structs.
#[derive(Clone, Copy, PartialEq, Eq, Debug, Default)]
pub struct Waiting {
    conditions: [Condition; 4],
    count: u8,
}

impl Waiting {
    pub const NONE: Waiting = Waiting { conditions: [0; 4], count: 0 };

    /// None for more than four conditions.
    pub fn new(conditions: &[Condition]) -> Option<Waiting> {
        let mut waiting = Waiting::NONE;
        waiting.conditions.get_mut(..conditions.len())?.copy_from_slice(conditions);
        waiting.count = conditions.len() as u8;
        Some(waiting)
    }

    /// The conditions an IT record sets, for a count of 1 to 4: else bits 0 to 2 are for the second
    /// to fourth record, and "inverses differ in the lowest bit".
    pub fn block(condition: Condition, count: u8, elses: u8) -> Waiting {
        let mut waiting = Waiting { conditions: [0; 4], count };
        for (i, slot) in waiting.conditions[..usize::from(count)].iter_mut().enumerate() {
            *slot = condition ^ ((elses << 1) >> i & 1);
        }
        waiting
    }

    pub fn conditions(&self) -> &[Condition] {
        &self.conditions[..usize::from(self.count)]
    }

    pub fn len(&self) -> usize {
        usize::from(self.count)
    }

    pub fn is_empty(&self) -> bool {
        self.count == 0
    }

    /// "If a condition is waiting, the first one rules".
    pub fn first(&self) -> Option<Condition> {
        self.conditions().first().copied()
    }

    /// "the waiting condition is dropped".
    pub fn rest(&self) -> Waiting {
        let [_, b, c, d] = self.conditions;
        Waiting { conditions: [b, c, d, 0], count: self.count.saturating_sub(1) }
    }

    /// "each waiting condition is 0 to 14, each the same as the first or its inverse; 14 has no
    /// inverse"; what would be its inverse, 15, is no condition.
    pub fn good(&self) -> bool {
        let first = self.conditions[0];
        self.conditions().iter().all(|&condition| condition <= AL && condition | 1 == first | 1)
    }
}
