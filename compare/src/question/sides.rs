//! One question after another put to both sides.

use super::Question;

pub struct Sides<Q: Question> {
    /// What a question is, for the text of a difference.
    what: &'static str,
    seed: u64,
    count: u64,
    proved: Q::Answer,
    second: Q::Answer,
}

impl<Q: Question> Sides<Q> {
    pub fn new(what: &'static str, seed: u64) -> Sides<Q> {
        let (proved, second) = (Q::Answer::default(), Q::Answer::default());
        Sides { what, seed, count: 0, proved, second }
    }

    pub fn count(&self) -> u64 {
        self.count
    }

    /// The last answer that both gave.
    pub fn answer(&self) -> &Q::Answer {
        &self.second
    }

    /// The answer that both gave; an error says how theirs differ.
    pub fn put(&mut self, question: &Q) -> Result<&Q::Answer, String> {
        self.count += 1;
        question.ask_proved(&mut self.proved);
        question.ask_second(&mut self.second);
        if self.proved == self.second {
            Ok(&self.second)
        } else {
            Err(self.differ(question))
        }
    }

    #[cold]
    fn differ(&self, question: &Q) -> String {
        let (what, count, seed) = (self.what, self.count, self.seed);
        let answers = format!("proved {}\nsecond {}", self.proved, self.second);
        let apart = Q::apart(["proved", "second"], [&self.proved, &self.second]).join("\n");
        format!("difference: {what} {count} of seed {seed}\n{question}\n{answers}\n{apart}")
    }
}
