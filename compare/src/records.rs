//! Records: the number that judges them, their lengths, and where they go.

mod answers;
mod numbers;
mod random;
mod sweeps;
mod tally;

use crate::counts::fewer;
use crate::{stock, Outcome};
use answers::Comparison;

pub fn run(least: u64) -> Result<String, String> {
    let stock = stock::stock();
    let later = [stock::tables(), stock::fillers()].concat();
    let mut comparison = Comparison::new(&[&stock[..], &later].concat());
    good(&stock)?;
    good(&stock::tables())?;
    sweep(&mut comparison, &stock)?;
    sweep_later(&mut comparison, &stock, &later)?;
    let tally = comparison.tally();
    match tally.gaps().into_iter().chain(fewer(tally.strings(), least)).collect::<Vec<_>>() {
        gaps if gaps.is_empty() => {
            Ok(format!("{tally}records: {} compared, no difference", tally.strings()))
        }
        gaps => Err(format!("{tally}records: not as the papers have it: {}", gaps.join("; "))),
    }
}

/// The sweeps go around the stock, so a record in it that is not done would make them poorer.
fn good(stock: &[Vec<u8>]) -> Outcome {
    match stock.iter().find(|record| second::judge::judge(record, 0) != 0) {
        Some(record) => Err(format!("stock: {record:02X?} is no good record")),
        None => Ok(()),
    }
}

fn sweep(comparison: &mut Comparison, stock: &[Vec<u8>]) -> Outcome {
    let samples = stock::samples(stock);
    sweeps::single_bytes(comparison, stock)?;
    sweeps::lengths(comparison, stock)?;
    sweeps::two_bytes(comparison, &samples)?;
    sweeps::kinds_and_ops(comparison, &samples)?;
    sweeps::one_listing(comparison, stock)?;
    numbers::constants(comparison)?;
    numbers::halves(comparison)?;
    numbers::offsets(comparison)?;
    numbers::lists(comparison)?;
    numbers::branches(comparison)?;
    numbers::small(comparison)?;
    random::records(comparison)
}

/// Order 1 of paper 02: the same around its records.
fn sweep_later(comparison: &mut Comparison, stock: &[Vec<u8>], later: &[Vec<u8>]) -> Outcome {
    sweeps::single_bytes(comparison, later)?;
    sweeps::lengths(comparison, later)?;
    sweeps::two_bytes(comparison, &stock::samples(later))?;
    sweeps::later_kinds(comparison, stock, later)?;
    sweeps::bodies(comparison)?;
    sweeps::one_listing(comparison, &[stock, later].concat())?;
    numbers::fillers(comparison)?;
    numbers::table_branches(comparison)
}
