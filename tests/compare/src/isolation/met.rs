//! What was met over many compared stretches.

use super::claim::Place;
use crate::runs::{kind, number, Kind};
use generator::handed_on::{next_list, Found};
use generator::records::Snapshot;
use reference::checks::{live_check, Flag};
use reference::record::FRAMES;
use reference::{stretch, Fault, Machine};
use std::fmt;

/// Counts over compared stretches.
#[derive(Clone, Debug, Default)]
pub struct Met {
    pub stretches: u64,
    pub crossed: u64,
    pub faulted: u64,
    pub halted: u64,
    pub spent: u64,
    /// Stretches that began with a live frame.
    pub with_frame: u64,
    /// Stretches with words that the domain may not see.
    pub with_hidden: u64,
    /// Stretches with words hidden only because a capability's source fails.
    pub hidden_by_source: u64,
    /// Stretches that ended with a call with a tagged a whose list's source is
    /// not the caller.
    pub lists_handed_on: u64,
    /// Those whose list's source is the caller itself.
    pub lists_with_own_source: u64,
    /// Those of both kinds that took the last free frame.
    pub lists_in_last_frame: u64,
    /// Those that ended with 24 for a list at a tagged a.
    pub lists_uncovered: u64,
    /// Those that ended with 25 at a word of such a list that is covered.
    pub lists_failing: u64,
    /// Words that a stretch changed in either memory.
    pub changed_words: u64,
    /// Those of them that the domain may not see.
    pub written_unseen: u64,
    pub instructions: u64,
}

impl Met {
    /// Counts one stretch.
    pub(super) fn count(&mut self, machine: &Machine, code: u32, places: &[Place]) {
        self.stretches += 1;
        match kind(code) {
            Some(Kind::Halted) => self.halted += 1,
            Some(Kind::Faulted) => self.faulted += 1,
            Some(Kind::Spent) => self.spent += 1,
            Some(Kind::Crossed) => self.crossed += 1,
            Some(Kind::Refused) | None => {}
        }
        self.instructions += u64::from(code & 0xFFFF);
        self.with_frame += u64::from(machine.frame_count > 0);
        let mut hidden = places.iter().filter(|place| !place.seen).peekable();
        self.with_hidden += u64::from(hidden.peek().is_some());
        let by_source = hidden.any(|place| {
            live_check(machine, place.segment, place.word, Flag::Read) == Err(Fault::SourceFails)
        });
        self.hidden_by_source += u64::from(by_source);
    }

    /// Counts how a stretch from this start ended, by the list that its last
    /// instruction handed on or did not.
    pub(super) fn count_list(&mut self, start: &Snapshot, code: u32) {
        let crossed = kind(code) == Some(Kind::Crossed);
        let Snapshot {
            mut machine,
            mut memory,
        } = start.clone();
        let before_the_last = code as u16 - u16::from(crossed);
        let ran = stretch(&mut machine, &mut memory, before_the_last);
        ran.expect("a sound record");
        match (number(code), next_list(&machine, &memory)) {
            (24, Some(Found::Uncovered(_))) => self.lists_uncovered += 1,
            (25, Some(Found::Covered { .. })) => self.lists_failing += 1,
            (_, Some(Found::Covered { sources, .. })) if crossed => {
                let is_own = sources[0] == machine.domain;
                self.lists_with_own_source += u64::from(is_own);
                self.lists_handed_on += u64::from(!is_own);
                let is_last = usize::from(machine.frame_count) + 1 == FRAMES;
                self.lists_in_last_frame += u64::from(is_last);
            }
            _ => {}
        }
    }

    /// Stretches after which nothing follows.
    pub(super) fn ended(&self) -> u64 {
        self.stretches - self.spent - self.crossed
    }
}

impl fmt::Display for Met {
    fn fmt(&self, f: &mut fmt::Formatter<'_>) -> fmt::Result {
        writeln!(
            f,
            "endings: crossed {} faulted {} halted {} spent {}",
            self.crossed, self.faulted, self.halted, self.spent
        )?;
        writeln!(f, "instructions completed {}", self.instructions)?;
        writeln!(f, "stretches with a live frame {}", self.with_frame)?;
        writeln!(f, "stretches with hidden words {}", self.with_hidden)?;
        writeln!(f, "  hidden by a failing source {}", self.hidden_by_source)?;
        writeln!(
            f,
            "lists handed on with another source {} the caller itself {} in the last frame {}",
            self.lists_handed_on, self.lists_with_own_source, self.lists_in_last_frame
        )?;
        writeln!(
            f,
            "lists not covered {} failing {}",
            self.lists_uncovered, self.lists_failing
        )?;
        writeln!(f, "words changed {}", self.changed_words)?;
        writeln!(f, "  hidden words stored to {}", self.written_unseen)
    }
}
