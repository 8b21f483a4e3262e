//! Cases in rows and columns, each of which must come up.

use std::fmt;

pub struct Cover {
    title: &'static str,
    columns: usize,
    /// None for what is no case.
    seen: Vec<Option<bool>>,
}

impl Cover {
    pub fn new(
        title: &'static str,
        [rows, columns]: [usize; 2],
        is_case: impl Fn(usize, usize) -> bool,
    ) -> Cover {
        let all = (0..rows).flat_map(|row| (0..columns).map(move |column| (row, column)));
        let seen = all.map(|(row, column)| is_case(row, column).then_some(false)).collect();
        Cover { title, columns, seen }
    }

    /// Whether it is a case that has not come up yet.
    pub fn lacks(&self, row: usize, column: usize) -> bool {
        self.seen[row * self.columns + column] == Some(false)
    }

    /// What is no case is not counted.
    pub fn see(&mut self, row: usize, column: usize) {
        if let Some(seen) = &mut self.seen[row * self.columns + column] {
            *seen = true;
        }
    }

    /// How many never came up, and the first of them.
    pub fn gap(&self) -> Option<String> {
        let never: Vec<usize> =
            (0..self.seen.len()).filter(|&at| self.seen[at] == Some(false)).collect();
        let first = never.first()?;
        let (row, column) = (first / self.columns, first % self.columns);
        Some(format!("{}: {} never, first {row}, {column}", self.title, never.len()))
    }
}

impl fmt::Display for Cover {
    fn fmt(&self, f: &mut fmt::Formatter<'_>) -> fmt::Result {
        let cases = self.seen.iter().flatten();
        let seen = cases.clone().filter(|&&seen| seen).count();
        write!(f, "{}: {seen} of {}", self.title, cases.count())
    }
}
