//! The calls by which a host finds a segment, restarts a machine and runs an
//! image at once, held against the reference's.

mod entries;
mod restarts;
mod segments;
mod tally;

pub use tally::{Call, Tally};

use crate::library;

/// Calls that were compared so far.
pub struct Comparison {
    pub tally: Tally,
    seed: u64,
}

impl Comparison {
    /// Begins; fails if the library is missing.
    pub fn new(seed: u64) -> Result<Comparison, String> {
        library::linked()?;
        let tally = Tally::default();
        Ok(Comparison { tally, seed })
    }
}

/// Compares all. Calls `progress` after each part.
pub fn compare_host(
    seed: u64,
    count: u64,
    mut progress: impl FnMut(&str, &Tally),
) -> Result<Tally, String> {
    let mut all = Comparison::new(seed)?;
    all.segments(count / 10)?;
    progress("segments", &all.tally);
    all.restarts(count)?;
    progress("restarts", &all.tally);
    all.entries(count)?;
    progress("images run at once", &all.tally);
    Ok(all.tally)
}
