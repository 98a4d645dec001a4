//! How often each number was given.

use generator::lent;
use std::fmt;

/// Highest number that these calls give.
const HIGHEST: usize = 21;

/// The calls.
#[derive(Clone, Copy, Debug, PartialEq, Eq)]
pub enum Call {
    Segment,
    Restart,
    Entry,
}

/// All of them, in order.
const CALLS: [Call; 3] = [Call::Segment, Call::Restart, Call::Entry];

/// Counts of the numbers that both implementations gave.
#[derive(Clone, Debug, Default)]
pub struct Tally {
    counts: [[u64; HIGHEST + 1]; 3],
    /// Calls that gave 9 for a dead gate alone.
    dead_gates: [u64; 3],
}

impl Tally {
    /// Counts a number.
    pub fn add(&mut self, call: Call, number: u8) {
        self.counts[call as usize][usize::from(number)] += 1;
    }

    /// Counts a number that was given for a record.
    pub fn add_for(&mut self, call: Call, number: u8, record: &[u8]) {
        self.add(call, number);
        self.dead_gates[call as usize] += u64::from(lent::is_dead_gate_alone(record));
    }

    /// How many calls gave 9 for a dead gate alone.
    pub fn dead_gates(&self, call: Call) -> u64 {
        self.dead_gates[call as usize]
    }

    /// How many calls were compared.
    pub fn total(&self) -> u64 {
        self.counts.iter().flatten().sum()
    }

    /// How many calls gave this number.
    pub fn of(&self, call: Call, number: u8) -> u64 {
        self.counts[call as usize][usize::from(number)]
    }
}

impl fmt::Display for Tally {
    fn fmt(&self, f: &mut fmt::Formatter<'_>) -> fmt::Result {
        writeln!(f, "number    segment    restart      entry")?;
        for number in (0..=10).chain([21]) {
            let [segment, restart, entry] = CALLS.map(|call| self.of(call, number));
            writeln!(f, "{number:<6}{segment:>11}{restart:>11}{entry:>11}")?;
        }
        let [segment, restart, entry] = self.counts.map(|row| row.iter().sum::<u64>());
        writeln!(f, "all   {segment:>11}{restart:>11}{entry:>11}")?;
        let [segments, restarts] = [Call::Segment, Call::Restart].map(|call| self.dead_gates(call));
        writeln!(
            f,
            "calls that gave 9 for a dead gate alone: segments {segments} restarts {restarts}"
        )
    }
}
