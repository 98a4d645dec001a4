//! How often each answer was given, by kind of record.

use reference::host::REFUSED;
use std::collections::BTreeMap;
use std::fmt;

/// Kinds of records.
#[derive(Clone, Copy, Debug, PartialEq, Eq, PartialOrd, Ord)]
pub enum Kind {
    /// As a run left it.
    MidRun,
    /// Sound, reachable or not.
    Sound,
    /// Sound but for a dead gate.
    DeadGate,
    /// With other garbage, mostly not sound.
    Garbage,
    /// Of fewer than 1,079 bytes.
    Short,
}

/// All kinds, in order.
pub const KINDS: [Kind; 5] = [
    Kind::MidRun,
    Kind::Sound,
    Kind::DeadGate,
    Kind::Garbage,
    Kind::Short,
];

/// Counts of answers: 0 for an index, else the number of the refusal.
#[derive(Clone, Debug, Default)]
pub struct Answers {
    counts: BTreeMap<(u32, Kind), u64>,
}

impl Answers {
    /// Counts an answer.
    pub fn add(&mut self, kind: Kind, answer: u32) {
        let number = answer.saturating_sub(REFUSED);
        *self.counts.entry((number, kind)).or_default() += 1;
    }

    /// How many answers were counted.
    pub fn total(&self) -> u64 {
        self.counts.values().sum()
    }

    /// How many had this number.
    pub fn of_number(&self, number: u32) -> u64 {
        self.sum(|n, _| n == number)
    }

    /// How many were about this kind of record.
    pub fn of_kind(&self, kind: Kind) -> u64 {
        self.sum(|_, k| k == kind)
    }

    fn sum(&self, counted: impl Fn(u32, Kind) -> bool) -> u64 {
        let rows = self.counts.iter();
        rows.filter(|((number, kind), _)| counted(*number, *kind))
            .map(|(_, count)| count)
            .sum()
    }
}

impl fmt::Display for Answers {
    fn fmt(&self, f: &mut fmt::Formatter<'_>) -> fmt::Result {
        write!(f, "{:<7}", "answer")?;
        for name in ["mid run", "sound", "dead gate", "garbage", "short"] {
            write!(f, "{name:>11}")?;
        }
        writeln!(f)?;
        for number in [0, 8, 9, 21, 22, 24, 25] {
            let name = match number {
                0 => "index".to_string(),
                _ => number.to_string(),
            };
            let counts = KINDS.map(|kind| self.sum(|n, k| (n, k) == (number, kind)));
            row(f, &name, counts)?;
        }
        row(f, "all", KINDS.map(|kind| self.of_kind(kind)))
    }
}

/// A line of counts, one for each kind.
fn row(f: &mut fmt::Formatter<'_>, name: &str, counts: [u64; KINDS.len()]) -> fmt::Result {
    write!(f, "{name:<7}")?;
    for count in counts {
        write!(f, "{count:>11}")?;
    }
    writeln!(f)
}
