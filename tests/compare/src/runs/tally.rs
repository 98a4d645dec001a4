//! What was compared, and what the compared runs reached.

use super::call::{kind, number, Call, Kind, KINDS};
use generator::{lent, Reached};
use std::fmt;

/// Names of the rows of `endings`.
const ROWS: [&str; 3] = ["runs", "stretches", "steps"];

/// Counts of calls that both implementations agreed on.
#[derive(Clone, Debug, Default)]
pub struct Tally {
    /// Reads by number, 0 to 10.
    reads: [u64; 11],
    /// Runs, stretches and single steps, by kind of ending.
    endings: [[u64; 5]; 3],
    /// Refused calls by number, 0 to 9.
    refused: [u64; 10],
    /// Runs, stretches and single steps that gave 9 for a dead gate alone.
    pub dead_gates: [u64; 3],
    /// What the runs and stretches went through; steps aren't in it.
    pub reached: Reached,
}

impl Tally {
    /// Counts a read.
    pub fn add_read(&mut self, number: u8) {
        self.reads[usize::from(number)] += 1;
        self.reached.count_read(number);
    }

    /// Counts a call that gave a code for a record.
    pub fn add_call(&mut self, call: Call, code: u32, record: &[u8]) {
        let row = match call {
            Call::Run(_) => 0,
            Call::Stretch(_) => 1,
            Call::Step => 2,
        };
        self.endings[row][(code >> 24) as usize] += 1;
        if kind(code) == Some(Kind::Refused) {
            self.refused[usize::from(number(code))] += 1;
            self.dead_gates[row] += u64::from(lent::is_dead_gate_alone(record));
        }
    }

    /// How many runs, stretches and steps were compared.
    pub fn total(&self) -> u64 {
        self.endings.iter().flatten().sum()
    }

    /// How many runs and steps ended in this way, and how many stretches.
    pub fn of(&self, kind: Kind) -> [u64; 2] {
        let [runs, stretches, steps] = self.endings.map(|row| row[kind as usize]);
        [runs + steps, stretches]
    }

    /// How many calls were refused with this number.
    pub fn refused_with(&self, number: u8) -> u64 {
        self.refused[usize::from(number)]
    }
}

impl fmt::Display for Tally {
    fn fmt(&self, f: &mut fmt::Formatter<'_>) -> fmt::Result {
        write!(f, "{}", self.reached)?;
        write!(f, "reads by number:")?;
        for (number, count) in self.reads.iter().enumerate() {
            write!(f, " {number}: {count}")?;
        }
        write!(f, "\ncalls    ")?;
        for kind in KINDS {
            write!(f, "{:>12}", format!("{kind:?}").to_lowercase())?;
        }
        for (name, counts) in ROWS.iter().zip(self.endings) {
            write!(f, "\n{name:<9}")?;
            for count in counts {
                write!(f, "{count:>12}")?;
            }
        }
        write!(f, "\nrefused calls by number:")?;
        for number in 7..=9 {
            write!(f, " {number}: {}", self.refused_with(number))?;
        }
        write!(f, "\ncalls that gave 9 for a dead gate alone:")?;
        for (name, count) in ROWS.iter().zip(self.dead_gates) {
            write!(f, " {name} {count}")?;
        }
        writeln!(f)
    }
}
