//! The run of the same listings by both sides, in steps a second. The time of the same call without a
//! step is taken off: lending machine and memory anew, and the check.

use super::clock::{best, Rounds};
use super::{rate, turns};
use crate::question::run::{Answer, Question};
use crate::question::Question as _;
use crate::runs::samples;
use std::time::Duration;

const ROUNDS: usize = 9;
/// What a round takes, about, of either side: what is shorter would more often go undisturbed.
const LOOP_ROUND: Duration = Duration::from_millis(300);
const SAMPLE_ROUND: Duration = Duration::from_millis(100);
const FIRST_TURNS: u32 = 10_000;
const TRIED: usize = 3;
/// The loop's turns are not above this, nor a sample's runs in a round.
const MOST: f64 = 4e8;

type Ask = fn(&Question, &mut Answer);
const ASKS: [Ask; 2] = [Question::ask_proved, Question::ask_second];

/// What one side does in a round.
struct Side {
    ask: Ask,
    question: Question,
    idle: Question,
    /// Each with machine and memory as they were given.
    runs: u32,
    steps: u32,
    /// Of calls without steps, and of runs.
    times: [Rounds; 2],
}

pub fn both() -> Result<String, String> {
    let mut courses = vec![("loop".to_string(), turning()?)];
    for sample in crate::samples::samples()? {
        courses.push((sample.name, sampled(&sample.listing)?));
    }
    // in turns, so that what slows the machine down for a while slows all of them
    for _ in 0..ROUNDS {
        for (_, sides) in &mut courses {
            sides.iter_mut().for_each(Side::round);
        }
    }
    let head = format!("run, steps a second less call and check, best of {ROUNDS} in turn:");
    let lines = courses.iter().map(|(name, sides)| line(name, sides));
    Ok([head].into_iter().chain(lines).collect::<Vec<_>>().join("\n"))
}

fn line(name: &str, sides: &[Side; 2]) -> String {
    let [proved, second] = [sides[0].rate(), sides[1].rate()];
    let told = format!("proved {proved:11.0}, second {second:11.0}");
    let ratio = proved / second;
    let [some, others] = [sides[0].all_steps(), sides[1].all_steps()];
    format!("  {name:12} {told}, proved to second {ratio:5.2}; rounds of {some} and {others} steps")
}

/// With turns that fill a round.
fn turning() -> Result<[Side; 2], String> {
    same(&turns::question(FIRST_TURNS)?)?;
    let [proved, second] = ASKS.map(|ask| {
        let mut turns = FIRST_TURNS;
        loop {
            let side = Side::new(ask, turns::question(turns)?)?;
            let short = LOOP_ROUND.as_secs_f64() / side.once().as_secs_f64();
            let more = f64::from(turns) * short.min(20.0);
            if short < 1.2 || more > MOST {
                return Ok::<Side, String>(side);
            }
            turns = more as u32;
        }
    });
    Ok([proved?, second?])
}

/// With runs that fill a round.
fn sampled(listing: &[u8]) -> Result<[Side; 2], String> {
    let question = samples::question(listing);
    same(&question)?;
    let [proved, second] = ASKS.map(|ask| {
        let side = Side::new(ask, question.clone())?;
        let runs = SAMPLE_ROUND.as_secs_f64() / side.once().as_secs_f64();
        Ok::<Side, String>(Side { runs: runs.clamp(1.0, MOST) as u32, ..side })
    });
    Ok([proved?, second?])
}

fn same(question: &Question) -> Result<(), String> {
    let [proved, second] = ASKS.map(|ask| {
        let mut answer = Answer::default();
        ask(question, &mut answer);
        answer
    });
    match proved == second {
        true => Ok(()),
        false => Err("the sides end a run differently: see `compare runs`".to_string()),
    }
}

impl Side {
    fn new(ask: Ask, question: Question) -> Result<Side, String> {
        let (idle, times) = (Question { budget: 0, ..question.clone() }, [(); 2]);
        let mut answer = Answer::default();
        ask(&question, &mut answer);
        let steps = match answer.ran() {
            Some([0, 0, count]) => count,
            _ => return Err(format!("a listing without its end: {answer}")),
        };
        Ok(Side { ask, question, idle, runs: 1, steps, times: times.map(|()| Rounds::new()) })
    }

    /// A run, the best of some.
    fn once(&self) -> Duration {
        let (mut rounds, mut answer) = (Rounds::new(), Answer::default());
        for _ in 0..TRIED {
            rounds.take(|| (self.ask)(&self.question, &mut answer));
        }
        best(&rounds)
    }

    fn round(&mut self) {
        let mut answer = Answer::default();
        for (times, question) in self.times.iter_mut().zip([&self.idle, &self.question]) {
            times.take(|| (0..self.runs).for_each(|_| (self.ask)(question, &mut answer)));
        }
    }

    fn all_steps(&self) -> usize {
        self.runs as usize * self.steps as usize
    }

    fn rate(&self) -> f64 {
        let [idle, runs] = &self.times;
        rate(self.all_steps(), best(runs).saturating_sub(best(idle)))
    }
}
