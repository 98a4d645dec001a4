//! `compare_log SEED COUNT`: holds logged runs of COUNT records, COUNT
//! generated images and COUNT damaged ones by the proved library against the
//! reference, and prints what the logs reached.

use compare::batch::{all_equal, arguments, ended, progress, reached};
use compare::logs::{compare_logs, Tally};
use std::process::ExitCode;

fn main() -> ExitCode {
    let (seed, count) = match arguments("compare_log SEED COUNT") {
        Ok((seed, count, _)) => (seed, count),
        Err(status) => return status,
    };
    let compared = compare_logs(seed, count, progress(Tally::total)).and_then(|tally| {
        let missing = tally.missing();
        reached(tally, &missing, count)
    });
    ended(compared, |tally| all_equal(tally.total()))
}
