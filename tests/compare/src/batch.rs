//! What the programs that compare a batch have in common: SEED and COUNT, a
//! line after each part, and how they end.

use std::fmt::Display;
use std::process::ExitCode;
use std::time::Instant;

/// From this COUNT on all must be reached.
const LARGE: u64 = 1000;

/// The number given as an argument.
fn number(argument: Option<String>) -> Option<u64> {
    argument?.parse().ok()
}

/// SEED and COUNT and the arguments after them; else prints the usage.
pub fn arguments(usage: &str) -> Result<(u64, u64, impl Iterator<Item = String>), ExitCode> {
    let mut arguments = std::env::args().skip(1);
    let (Some(seed), Some(count)) = (number(arguments.next()), number(arguments.next())) else {
        eprintln!("usage: {usage}");
        return Err(ExitCode::from(2));
    };
    Ok((seed, count, arguments))
}

/// What prints the time and how many were compared after each part.
pub fn progress<T>(total: impl Fn(&T) -> u64) -> impl FnMut(&str, &T) {
    let begun = Instant::now();
    move |part, tally| {
        let seconds = begun.elapsed().as_secs_f32();
        println!("{seconds:6.1} s {:>9} compared: {part}", total(tally));
    }
}

/// Prints what a batch came to: the tally and the last line, or what differs.
pub fn ended<T: Display>(
    compared: Result<T, String>,
    last_line: impl Fn(&T) -> String,
) -> ExitCode {
    match compared {
        Ok(tally) => {
            print!("{tally}");
            println!("{}", last_line(&tally));
            ExitCode::SUCCESS
        }
        Err(difference) => {
            println!("{difference}");
            ExitCode::FAILURE
        }
    }
}

/// The last line of a batch that differs nowhere.
pub fn all_equal(total: u64) -> String {
    format!("{total} compared, 0 differences")
}

/// A large batch that missed something differs from what it should be.
pub fn reached<T: Display>(tally: T, missing: &[String], count: u64) -> Result<T, String> {
    if count < LARGE || missing.is_empty() {
        return Ok(tally);
    }
    Err(format!("{tally}never reached: {}", missing.join(", ")))
}
