//! Counts over calls that hand a list on.

use super::found::{find, reads_by_passed_on_source, Found, Uncovered, UNCOVERED};
use reference::record::FRAMES;
use reference::words::Instruction;
use reference::{Completed, Fault, Machine};
use std::fmt;

/// What is seen before an instruction is executed.
pub(crate) struct Before {
    found: Option<Found>,
    caller: u8,
    frames: u8,
    reads_by_source: bool,
}

impl Before {
    pub(crate) fn new(machine: &Machine, memory: &[u32], instruction: Instruction) -> Before {
        Before {
            found: find(machine, memory, instruction),
            caller: machine.domain,
            frames: machine.frame_count,
            reads_by_source: reads_by_passed_on_source(machine, instruction),
        }
    }
}

/// Runs by what became of their calls through a gate with a tagged a.
#[derive(Clone, Debug, Default)]
pub struct HandedOn {
    /// A call gave 24, by why.
    uncovered: [u64; UNCOVERED.len()],
    /// A call gave 25 at a word other than word 0, before a capability that
    /// covers the list.
    pub failing_word: u64,
    /// A call was completed.
    pub completed: u64,
    /// One whose list's source is not the caller.
    pub other_source: u64,
    /// One whose list's source is the caller itself.
    pub own_source: u64,
    /// One that took the last free frame.
    pub last_frame: u64,
    /// One where the first covering capability's source isn't the last one's.
    pub two_sources: u64,
    /// A word was read through a list capability by its source where the
    /// caller itself has no R.
    pub read_by_source: u64,
}

impl HandedOn {
    /// Counts an instruction by what was seen before it and what it gave.
    pub(crate) fn count(&mut self, before: Before, outcome: Result<Completed, Fault>) {
        self.read_by_source += u64::from(before.reads_by_source && outcome.is_ok());
        if let Some(found) = before.found {
            self.count_call(found, &before, outcome);
        }
    }

    /// Counts a call for whose list this was found.
    fn count_call(&mut self, found: Found, before: &Before, outcome: Result<Completed, Fault>) {
        match (found, outcome) {
            (Found::Uncovered(why), Err(Fault::NoCapability)) => {
                self.uncovered[why as usize] += 1;
            }
            (Found::Covered { failing_word, .. }, Err(Fault::SourceFails)) => {
                self.failing_word += u64::from(failing_word);
            }
            (Found::Covered { sources, .. }, Ok(Completed::Called)) => {
                let [first, last] = sources;
                self.completed += 1;
                self.other_source += u64::from(first != before.caller);
                self.own_source += u64::from(first == before.caller);
                let is_last = usize::from(before.frames) + 1 == FRAMES;
                self.last_frame += u64::from(is_last);
                self.two_sources += u64::from(first != last);
            }
            _ => {}
        }
    }

    /// Adds a run by what was counted in it.
    pub(crate) fn add_run(&mut self, run: &HandedOn) {
        let once = |total: &mut u64, count: u64| *total += count.min(1);
        for (total, &count) in self.uncovered.iter_mut().zip(&run.uncovered) {
            once(total, count);
        }
        once(&mut self.failing_word, run.failing_word);
        once(&mut self.completed, run.completed);
        once(&mut self.other_source, run.other_source);
        once(&mut self.own_source, run.own_source);
        once(&mut self.last_frame, run.last_frame);
        once(&mut self.two_sources, run.two_sources);
        once(&mut self.read_by_source, run.read_by_source);
    }

    /// How many calls gave 24 for this.
    pub fn of(&self, why: Uncovered) -> u64 {
        self.uncovered[why as usize]
    }

    /// How many calls gave 24 when the cover was judged.
    pub fn cover_refused(&self) -> u64 {
        let by_word_0 = self.of(Uncovered::NoFrame) + self.of(Uncovered::FirstWord);
        self.uncovered.iter().sum::<u64>() - by_word_0
    }
}

impl fmt::Display for HandedOn {
    fn fmt(&self, out: &mut fmt::Formatter) -> fmt::Result {
        writeln!(
            out,
            "runs with a list handed on {}, source not the caller {}, source the caller itself {}",
            self.completed, self.other_source, self.own_source
        )?;
        writeln!(
            out,
            "runs with a list handed on, first source not the last {}, into the last frame {}",
            self.two_sources, self.last_frame
        )?;
        let reads = self.read_by_source;
        writeln!(
            out,
            "runs with a list word read by a source passed on {reads}"
        )?;
        write!(out, "lists not covered:")?;
        for why in UNCOVERED {
            write!(out, " {why:?}: {}", self.of(why))?;
        }
        let failing = self.failing_word;
        writeln!(
            out,
            "\n25 at a list's word before a covering capability {failing}"
        )
    }
}
