//! What a logged run must keep, whatever it ran.

use super::pair::Output;
use crate::runs::{kind, Kind};
use crate::state::State;
use reference::crossings::CROSSING_BYTES;

/// Where a record has the number of frames in use.
pub const FRAMES_IN_USE: usize = reference::bytes::DEPTH;

/// A state and an output, before a logged run or after it.
#[derive(Clone, Copy)]
pub struct Held<'a> {
    pub state: &'a State,
    pub output: &'a Output,
}

impl Held<'_> {
    /// The frames in use and one of the totals.
    fn frames_and(self, total: u16) -> u32 {
        u32::from(self.state.record[FRAMES_IN_USE]) + u32::from(total)
    }
}

/// Whether a logged run kept what it must; else what it broke.
pub fn keeps(code: u32, before: Held, after: Held) -> Result<(), String> {
    if kind(code) == Some(Kind::Refused) {
        let stays = before.state == after.state && before.output == after.output;
        return fails_unless(stays, "changed by a refused call");
    }
    let Output {
        log,
        calls,
        returns,
    } = after.output;
    let lines = lines(after.output);
    let (records, rest) = log.split_at(CROSSING_BYTES * lines);
    let of = |way: u8| {
        records
            .chunks(CROSSING_BYTES)
            .filter(move |row| row[0] == way)
    };
    let totals = [of(0).count(), of(1).count()] == [*calls, *returns].map(usize::from);
    fails_unless(totals, "the totals are not those of the records")?;
    let stay = rest == &before.output.log[records.len()..];
    fails_unless(stay, "a byte past the last record changed")?;
    let frames = before.frames_and(*calls) == after.frames_and(*returns);
    fails_unless(frames, "frames and totals do not fit")
}

/// How many lines an output has.
pub fn lines(output: &Output) -> usize {
    usize::from(output.calls) + usize::from(output.returns)
}

fn fails_unless(holds: bool, what: &str) -> Result<(), String> {
    match holds {
        true => Ok(()),
        false => Err(what.to_string()),
    }
}
