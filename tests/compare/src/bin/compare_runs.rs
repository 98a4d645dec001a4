//! `compare_runs SEED COUNT`: runs COUNT generated images and COUNT damaged
//! ones with the proved library and with the reference, and prints what they
//! reached.

use compare::batch::{arguments, ended, progress};
use compare::runs::{compare_runs, Tally};
use std::process::ExitCode;

fn main() -> ExitCode {
    let (seed, count) = match arguments("compare_runs SEED COUNT") {
        Ok((seed, count, _)) => (seed, count),
        Err(status) => return status,
    };
    let compared = compare_runs(seed, count, progress(Tally::total));
    ended(compared, |tally| {
        format!("{} runs compared, 0 differences", tally.total())
    })
}
