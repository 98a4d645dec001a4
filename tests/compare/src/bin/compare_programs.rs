//! `compare_programs SEED COUNT`: holds what the proved programs print of COUNT
//! generated and COUNT damaged images against the reference, and prints what
//! the texts reached.

use compare::batch::{all_equal, arguments, ended, reached};
use compare::programs::compare_programs;
use std::process::ExitCode;

fn main() -> ExitCode {
    let (seed, count) = match arguments("compare_programs SEED COUNT") {
        Ok((seed, count, _)) => (seed, count),
        Err(status) => return status,
    };
    let compared = compare_programs(seed, count).and_then(|tally| {
        let missing = tally.missing();
        reached(tally, &missing, count)
    });
    ended(compared, |tally| all_equal(tally.total))
}
