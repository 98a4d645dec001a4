//! How often each number was given.

use generator::DeadGates;
use std::fmt;

/// Highest number that a reader or writer gives.
const HIGHEST: usize = 10;

/// The two calls.
#[derive(Clone, Copy, Debug, PartialEq, Eq)]
pub enum Call {
    Read,
    Write,
}

/// Counts of the numbers that both implementations gave.
#[derive(Clone, Debug, Default)]
pub struct Tally {
    counts: [[u64; HIGHEST + 1]; 2],
    /// Damaged images by what was done to their gates.
    pub dead_gates: DeadGates,
    /// Writes that gave 9 for a dead gate alone.
    pub dead_writes: u64,
}

impl Tally {
    /// Counts a number.
    pub fn add(&mut self, call: Call, number: u8) {
        self.counts[call as usize][usize::from(number)] += 1;
    }

    /// How many calls were compared.
    pub fn total(&self) -> u64 {
        self.counts.iter().flatten().sum()
    }

    /// How many calls gave this number.
    pub fn of(&self, call: Call, number: u8) -> u64 {
        self.counts[call as usize][usize::from(number)]
    }
}

impl fmt::Display for Tally {
    fn fmt(&self, f: &mut fmt::Formatter<'_>) -> fmt::Result {
        writeln!(f, "number       read      write")?;
        for number in 0..=HIGHEST as u8 {
            let [read, write] = [Call::Read, Call::Write].map(|call| self.of(call, number));
            writeln!(f, "{number:<6}{read:>11}{write:>11}")?;
        }
        let [read, write] = self.counts.map(|row| row.iter().sum::<u64>());
        writeln!(f, "all   {read:>11}{write:>11}")?;
        write!(f, "{}", self.dead_gates)?;
        let writes = self.dead_writes;
        writeln!(f, "writes that gave 9 for a dead gate alone: {writes}")
    }
}
