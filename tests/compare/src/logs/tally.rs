//! What the compared logs reached.

use super::laws::{lines, FRAMES_IN_USE};
use super::pair::Output;
use crate::runs::{kind, number, Kind};
use crate::state::State;
use generator::lent;
use reference::crossings::CROSSING_BYTES;
use reference::RECORD_BYTES;
use std::collections::BTreeMap;
use std::fmt;

/// Names of the numbers of lines that are counted together.
const BUCKETS: [&str; 4] = ["none", "1", "2 to 9", "10 or more"];

/// Counts of logged runs that both implementations agreed on.
#[derive(Clone, Debug, Default)]
pub struct Tally {
    /// By number of a fault or refusal, or 0.
    numbers: BTreeMap<u8, u64>,
    /// Refused with 8 for the log and not for the record.
    pub short_logs: u64,
    /// Refused with 9 for a dead gate alone.
    pub dead_gates: u64,
    /// Not refused, by lines: none, 1, 2 to 9, 10 or more.
    pub lines: [u64; 4],
    /// Lines of the longest log.
    pub longest: usize,
    /// Those that faulted after a crossing.
    pub faulted_after_crossing: u64,
    /// Those that crossed and ended with frames in use.
    pub left_in_frames: u64,
    /// Crossings to a word of 256 or more, and the calls among them.
    pub far_crossings: u64,
    pub far_calls: u64,
    /// Crossings into a segment of 10 or more.
    pub high_segments: u64,
}

impl Tally {
    /// Counts a logged run by its code and by what it left.
    pub fn add(&mut self, code: u32, state: &State, output: &Output) {
        let number = number(code);
        *self.numbers.entry(number).or_default() += 1;
        if kind(code) == Some(Kind::Refused) {
            let is_log = number == 8 && state.record.len() >= RECORD_BYTES;
            self.short_logs += u64::from(is_log);
            self.dead_gates += u64::from(lent::is_dead_gate_alone(&state.record));
            return;
        }
        let lines = lines(output);
        let bucket = match lines {
            0 | 1 => lines,
            2..=9 => 2,
            _ => 3,
        };
        self.lines[bucket] += 1;
        self.longest = self.longest.max(lines);
        if lines > 0 {
            self.faulted_after_crossing += u64::from(kind(code) == Some(Kind::Faulted));
            self.left_in_frames += u64::from(state.record[FRAMES_IN_USE] > 0);
        }
        let rows = output.log.chunks_exact(CROSSING_BYTES).take(lines);
        rows.for_each(|row| self.add_crossing(row));
    }

    /// Counts a record of a log by where it went.
    fn add_crossing(&mut self, row: &[u8]) {
        let (way, segment, high) = (row[0], row[3], row[5]);
        self.far_crossings += u64::from(high > 0);
        self.far_calls += u64::from(high > 0 && way == 0);
        self.high_segments += u64::from(segment >= 10);
    }

    /// How many were compared.
    pub fn total(&self) -> u64 {
        self.numbers.values().sum()
    }

    /// How many gave this number.
    pub fn of(&self, number: u8) -> u64 {
        self.numbers.get(&number).copied().unwrap_or(0)
    }

    /// What was never reached, of all that a large batch must reach.
    pub fn missing(&self) -> Vec<String> {
        let lines = BUCKETS.iter().zip(self.lines);
        let lines = lines.map(|(name, count)| (format!("logs with lines: {name}"), count));
        let others = [
            ("faults after a crossing", self.faulted_after_crossing),
            ("frames in use at the end", self.left_in_frames),
            ("crossings to a word of 256 or more", self.far_crossings),
            ("calls at a word of 256 or more", self.far_calls),
            ("crossings into a segment of 10 or more", self.high_segments),
            ("number 7", self.of(7)),
            ("number 8 for the record", self.of(8) - self.short_logs),
            ("number 8 for the log", self.short_logs),
            ("number 9", self.of(9)),
            ("number 9 for a dead gate alone", self.dead_gates),
        ];
        let others = others.map(|(name, count)| (name.to_string(), count));
        let all = lines.chain(others);
        all.filter(|&(_, count)| count == 0)
            .map(|(name, _)| name)
            .collect()
    }
}

impl fmt::Display for Tally {
    fn fmt(&self, f: &mut fmt::Formatter<'_>) -> fmt::Result {
        write!(f, "numbers given:")?;
        for number in [0].into_iter().chain(7..=9).chain(21..=32) {
            write!(f, " {number}: {}", self.of(number))?;
        }
        writeln!(f, "\n8 for the log: {}", self.short_logs)?;
        writeln!(f, "9 for a dead gate alone: {}", self.dead_gates)?;
        write!(f, "logs by lines:")?;
        for (name, count) in BUCKETS.iter().zip(self.lines) {
            write!(f, " {name}: {count}")?;
        }
        writeln!(f, "\nlongest log: {} lines", self.longest)?;
        let faulted = self.faulted_after_crossing;
        writeln!(f, "logs that end with a fault after a crossing: {faulted}")?;
        let frames = self.left_in_frames;
        writeln!(f, "logs that cross and end with frames in use: {frames}")?;
        let (crossings, calls) = (self.far_crossings, self.far_calls);
        writeln!(
            f,
            "crossings to a word of 256 or more: {crossings}, calls {calls}"
        )?;
        let segments = self.high_segments;
        writeln!(f, "crossings into a segment of 10 or more: {segments}")
    }
}
