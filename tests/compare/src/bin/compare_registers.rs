//! `compare_registers SEED COUNT`: runs COUNT generated images and COUNT records
//! by the reference with and without registers, and prints what they reached.

use compare::batch::{all_equal, arguments, ended, progress, reached};
use compare::registers::{compare_registers, Tally};
use std::process::ExitCode;

fn main() -> ExitCode {
    let (seed, count) = match arguments("compare_registers SEED COUNT") {
        Ok((seed, count, _)) => (seed, count),
        Err(status) => return status,
    };
    let compared = compare_registers(seed, count, progress(Tally::total));
    let compared = compared.and_then(|tally| {
        let missing = tally.missing();
        reached(tally, &missing, count)
    });
    ended(compared, |tally| all_equal(tally.total()))
}
