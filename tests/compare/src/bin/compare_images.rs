//! `compare_images SEED COUNT [all]`: holds the proved reader and writer of
//! images against the reference implementation's, and prints how often each
//! number was given. With `all`, each byte of the long images too is changed
//! to each other value, which takes ten minutes.

use compare::batch::{all_equal, arguments, ended, progress};
use compare::images::{compare_images, Tally};
use std::process::ExitCode;

fn main() -> ExitCode {
    let (seed, count, mut more) = match arguments("compare_images SEED COUNT [all]") {
        Ok(given) => given,
        Err(status) => return status,
    };
    let all_changes = match more.next().as_deref() {
        None => false,
        Some("all") => true,
        Some(other) => {
            eprintln!("compare_images: {other} is not known");
            return ExitCode::from(2);
        }
    };
    let compared = compare_images(seed, count, all_changes, progress(Tally::total));
    ended(compared, |tally| all_equal(tally.total()))
}
