//! `compare_checks SEED COUNT`: holds the proved checks against the reference
//! implementation's, and prints how often each answer was given.

use compare::batch::{arguments, ended};
use compare::compare_checks;
use std::process::ExitCode;

fn main() -> ExitCode {
    let (seed, count) = match arguments("compare_checks SEED COUNT") {
        Ok((seed, count, _)) => (seed, count),
        Err(status) => return status,
    };
    ended(compare_checks(seed, count), |answers| {
        format!("{} references, no difference", answers.total())
    })
}
