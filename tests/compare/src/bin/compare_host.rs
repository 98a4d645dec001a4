//! `compare_host SEED COUNT`: holds segments, restarts and images run at once
//! by the proved library against the reference, and prints how often each
//! number was given.

use compare::batch::{all_equal, arguments, ended, progress};
use compare::host::{compare_host, Tally};
use std::process::ExitCode;

fn main() -> ExitCode {
    let (seed, count) = match arguments("compare_host SEED COUNT") {
        Ok((seed, count, _)) => (seed, count),
        Err(status) => return status,
    };
    let compared = compare_host(seed, count, progress(Tally::total));
    ended(compared, |tally| all_equal(tally.total()))
}
