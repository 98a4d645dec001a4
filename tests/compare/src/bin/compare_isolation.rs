//! `compare_isolation SEED [COUNT]`: holds COUNT stretches by the proved
//! library (100,000 if none is given) against the isolation claim, with two
//! memories that differ in hidden words, and prints what was met.

use compare::isolation::compare_isolation;
use std::process::ExitCode;

/// Stretches if no number is given.
const COUNT: u64 = 100_000;

/// The numbers given as arguments.
fn numbers() -> Option<(u64, u64)> {
    let mut arguments = std::env::args().skip(1);
    let seed = arguments.next()?.parse().ok()?;
    let count = match arguments.next() {
        None => COUNT,
        Some(count) => count.parse().ok()?,
    };
    Some((seed, count))
}

fn main() -> ExitCode {
    let Some((seed, count)) = numbers() else {
        eprintln!("usage: compare_isolation SEED [COUNT]");
        return ExitCode::from(2);
    };
    match compare_isolation(seed, count) {
        Ok(met) => {
            print!("{met}");
            println!("{} stretches compared, 0 differences", met.stretches);
            ExitCode::SUCCESS
        }
        Err(broken) => {
            println!("{broken}");
            ExitCode::FAILURE
        }
    }
}
