//! What the answer to a fresh run or a resume has to be by `simbhoket_run`, the check and a plain
//! walk: "Answers and counts stay as in 01", and the stored place is "the one that the walk would
//! find".

use crate::image;
use crate::measured::place_at;
use crate::proved;
use crate::question::resume::{Answer, Entry, Question, NONE, ROOM};
use crate::question::{run, Question as _};

const UNFIT: u32 = 1;
const PC: usize = 15;

/// How far a question comes.
#[derive(Clone, Copy, PartialEq, Eq)]
pub enum Reach {
    /// An image that is none, or a room of another length.
    Barred,
    /// By the tests of machine and memory, or by the check.
    Refused,
    /// "a resume whose stored place disagrees with R15".
    Disagrees,
    Runs,
}
use Reach::*;

pub struct Law {
    /// The last listing, its base and what the check says of it.
    checked: (Vec<u8>, u32, u64),
    ran: Answer,
}

impl Law {
    pub fn new() -> Law {
        Law { checked: (Vec::new(), 0, proved::check(&[], 0)), ran: Answer::default() }
    }

    /// Of the answer that both sides gave; an error says what does not hold.
    pub fn hold(&mut self, question: &Question, answer: &Answer) -> Result<Reach, String> {
        let (reach, wanted) = self.wanted(question);
        if wanted == *answer {
            return Ok(reach);
        }
        let names = ["simbhoket_run and the walk", "both sides"];
        let apart = Question::apart(names, [&wanted, answer]).join("\n");
        Err(format!("both sides answer otherwise than they may:\n{question}\n{apart}"))
    }

    /// "refused by the tests or the check: fresh run "none", resume as given. A resume that
    /// disagrees: as given. Else the walk's for R15" (S47).
    fn wanted(&mut self, question: &Question) -> (Reach, Answer) {
        let run = &question.run;
        let given = match question.entry {
            Entry::Fresh => NONE,
            Entry::Stored(place) => place,
        };
        if run.is_none(ROOM) {
            return (Barred, run.answered(&[UNFIT, 0, 0, given]));
        }
        let alone = run::Question { room: run::ROOM, ..run.clone() };
        alone.ask_proved(&mut self.ran);
        // where the room was not written to, what no run gives
        let [number, place, count] = self.ran.ran().unwrap_or([u32::MAX; 3]);
        if number == UNFIT || self.check(run) != 0 {
            return (Refused, run.answered(&[number, place, count, given]));
        }
        let walked =
            |image: &[u8]| place_at(&run.listing, run.listing_base, image::register(image, PC));
        if question.entry == Entry::Stored(given) && given != walked(&run.image) {
            return (Disagrees, run.answered(&[UNFIT, 0, 0, given]));
        }
        let lent = self.ran.lent.clone();
        let words = [number, place, count, walked(&lent.image)];
        (Runs, Answer { lent, ..run.answered(&words) })
    }

    fn check(&mut self, run: &run::Question) -> u64 {
        let (listing, base, check) = &mut self.checked;
        if *base != run.listing_base || *listing != run.listing {
            (*listing, *base) = (run.listing.clone(), run.listing_base);
            *check = proved::check(listing, *base);
        }
        *check
    }
}
