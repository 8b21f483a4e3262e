//! Demand 3 of resumes: it takes "in place of its start, a resume of a good machine whose stored
//! place agrees and isn't "none", with those conditions waiting that the layout gives there".

use super::law::Reach;
use crate::image::{self, Image};
use crate::question::resume::{Answer, Entry, Question, NONE};
use crate::question::Question as _;
use crate::runs::demand::Demand;
use crate::site::{site, Site};
use crate::walk::Item;
use crate::Outcome;

const PC: usize = 15;

/// Machine, memory and check are known to be as they have to, and the place to agree, where it
/// runs.
pub fn takes(question: &Question, reach: Reach, items: &[Item]) -> bool {
    match question.entry {
        Entry::Stored(place) if place != NONE && reach == Reach::Runs => {
            waits_right(question, items)
        }
        _ => false,
    }
}

/// Whether R15 is at a record or the end, with the layout's conditions waiting; at the end it has
/// none (R22).
pub fn waits_right(question: &Question, items: &[Item]) -> bool {
    let run = &question.run;
    let (site, item) = site(items, run.listing_base, image::register(&run.image, PC));
    let layout = match (site, item) {
        (Site::Outside | Site::InBlock, Some(item)) => &item.conditions[..],
        (Site::End, _) => &[],
        _ => return false,
    };
    Image::of(&run.image).map_or(false, |image| image.waiting() == layout)
}

pub fn hold(demand: &mut Demand, question: &Question, answer: &Answer) -> Outcome {
    let ask = |budget| {
        let (mut asked, mut answer) = (question.clone(), Answer::default());
        asked.run.budget = budget;
        asked.ask_proved(&mut answer);
        answer
    };
    let held = demand.hold(&question.run, answer, ask);
    held.map_err(|broken| format!("{broken}\n{question}"))
}
