//! What was compared with and without registers, and what it reached.

use super::Sides;
use crate::runs::Call;
use generator::Reached;
use std::fmt;

/// Counts of what both agreed on.
#[derive(Clone, Debug, Default)]
pub struct Tally {
    /// Runs, stretches and single steps.
    pub calls: u64,
    /// References asked of a record.
    pub references: u64,
    /// What the calls went through.
    pub reached: Reached,
}

impl Tally {
    /// Makes a call by both sides and counts it. Gives its code.
    pub(super) fn call(&mut self, sides: &mut Sides, call: Call) -> Result<u32, String> {
        let code = sides.call(call, &mut self.reached)?;
        self.calls += 1;
        Ok(code)
    }

    /// How many answers were compared.
    pub fn total(&self) -> u64 {
        self.calls + self.references
    }

    /// What was never reached.
    pub fn missing(&self) -> Vec<String> {
        let all = self.reached.recents.named().into_iter();
        let missing = all.filter(|(_, count)| *count == 0);
        missing.map(|(name, _)| name).collect()
    }
}

impl fmt::Display for Tally {
    fn fmt(&self, f: &mut fmt::Formatter<'_>) -> fmt::Result {
        write!(f, "{}", self.reached)?;
        writeln!(f, "calls {} references {}", self.calls, self.references)
    }
}
