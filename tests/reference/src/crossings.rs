//! The log of a run: a record or a line for each completed crossing.

use crate::image::read_image;
use crate::instructions::Completed;
use crate::numbers::Refusal;
use crate::record::{Location, Machine};
use crate::report::PRINTED_LIMIT;
use crate::run::{Ending, Processor, Run};
use crate::MEMORY_WORDS;

/// Bytes of one record of the log.
pub const CROSSING_BYTES: usize = 6;
/// Fewest bytes of a log: a record for each instruction of a run.
pub const LOG_BYTES: usize = CROSSING_BYTES * PRINTED_LIMIT as usize;

/// Which way a crossing went.
#[derive(Clone, Copy, Debug, PartialEq, Eq)]
pub enum Way {
    Call,
    Return,
}

/// A completed crossing: the domain left, the one entered, and the place.
#[derive(Clone, Copy, Debug, PartialEq, Eq)]
pub struct Crossing {
    pub way: Way,
    pub left: u8,
    pub entered: u8,
    pub at: Location,
}

impl Crossing {
    /// What an instruction that began in domain `left` was, if it crossed;
    /// the machine is as it left it.
    fn of(completed: Completed, left: u8, machine: &Machine) -> Option<Crossing> {
        let way = match completed {
            Completed::Called => Way::Call,
            Completed::Returned => Way::Return,
            Completed::Plain | Completed::Halted => return None,
        };
        Some(Crossing {
            way,
            left,
            entered: machine.domain,
            at: machine.location,
        })
    }

    /// The record: 0 for a call or 1 for a return, the domains, the place.
    pub fn bytes(self) -> [u8; CROSSING_BYTES] {
        let way = match self.way {
            Way::Call => 0,
            Way::Return => 1,
        };
        let [low, high] = self.at.word.to_le_bytes();
        [way, self.left, self.entered, self.at.segment, low, high]
    }

    /// The line.
    pub fn line(self) -> String {
        let way = match self.way {
            Way::Call => "call",
            Way::Return => "return",
        };
        let (left, entered, at) = (self.left, self.entered, self.at);
        format!("{way} {left} {entered} {} {}\n", at.segment, at.word)
    }
}

/// The crossings of a run, in order.
#[derive(Clone, Debug, Default, PartialEq, Eq)]
pub struct Log {
    pub crossings: Vec<Crossing>,
}

impl Log {
    /// How many calls and how many returns there were.
    pub fn totals(&self) -> (u16, u16) {
        let calls = self.crossings.iter().filter(|row| row.way == Way::Call);
        let calls = calls.count();
        (calls as u16, (self.crossings.len() - calls) as u16)
    }

    /// Puts the records into the first bytes, which are there.
    pub fn put(&self, bytes: &mut [u8]) {
        let rows = bytes.chunks_exact_mut(CROSSING_BYTES);
        for (row, crossing) in rows.zip(&self.crossings) {
            row.copy_from_slice(&crossing.bytes());
        }
    }

    /// A line for each crossing, then the totals.
    pub fn lines(&self) -> String {
        let (calls, returns) = self.totals();
        let lines = self.crossings.iter().map(|crossing| crossing.line());
        lines.collect::<String>() + &format!("calls {calls} returns {returns}\n")
    }
}

/// Executes at most 1,000 instructions; gives the run and its log.
pub fn logged(mut processor: Processor) -> (Run, Log) {
    let (mut count, mut log) = (0, Log::default());
    while count < PRINTED_LIMIT {
        let left = processor.machine().domain;
        let completed = match processor.step() {
            Ok(completed) => completed,
            Err(fault) => return (Run::new(Ending::Faulted(fault), count), log),
        };
        count += 1;
        if completed == Completed::Halted {
            return (Run::new(Ending::Halted, count), log);
        }
        let crossing = Crossing::of(completed, left, processor.machine());
        log.crossings.extend(crossing);
    }
    (Run::new(Ending::Spent, count), log)
}

/// Runs an image in a memory of its own; gives its log.
fn log_image(image: &[u8]) -> Result<Log, Refusal> {
    let mut memory = [0; MEMORY_WORDS];
    let mut machine = Machine::default();
    read_image(image, &mut machine, &mut memory)?;
    let (_, log) = logged(Processor::new(&mut machine, &mut memory)?);
    Ok(log)
}

/// What a program prints that runs an image for 1,000 instructions and logs
/// its crossings.
pub fn printed_log(image: &[u8]) -> String {
    match log_image(image) {
        Err(refusal) => format!("refused {}\n", refusal.number()),
        Ok(log) => log.lines(),
    }
}

#[cfg(test)]
mod tests {
    use super::*;

    fn crossing(way: Way, left: u8, entered: u8, segment: u8, word: u16) -> Crossing {
        let at = Location { segment, word };
        Crossing {
            way,
            left,
            entered,
            at,
        }
    }

    fn sample() -> Log {
        let crossings = vec![
            crossing(Way::Call, 0, 7, 15, 4095),
            crossing(Way::Return, 7, 0, 3, 258),
            crossing(Way::Call, 2, 2, 4, 0),
        ];
        Log { crossings }
    }

    #[test]
    fn records_have_six_bytes_and_the_word_little_endian() {
        let mut bytes = [0xEE; 20];
        sample().put(&mut bytes);
        let due = [
            0, 0, 7, 15, 255, 15, 1, 7, 0, 3, 2, 1, 0, 2, 2, 4, 0, 0, 0xEE, 0xEE,
        ];
        assert_eq!(bytes, due);
    }

    #[test]
    fn lines_are_decimal_and_the_totals_come_last() {
        let due = "call 0 7 15 4095\nreturn 7 0 3 258\ncall 2 2 4 0\ncalls 2 returns 1\n";
        assert_eq!(sample().lines(), due);
        assert_eq!(sample().totals(), (2, 1));
        assert_eq!(Log::default().lines(), "calls 0 returns 0\n");
    }

    #[test]
    fn what_the_instruction_was_decides() {
        let machine = Machine {
            domain: 3,
            frame_count: 5,
            ..Machine::default()
        };
        let of = |completed| Crossing::of(completed, 1, &machine).map(|found| found.way);
        assert_eq!(of(Completed::Called), Some(Way::Call));
        assert_eq!(of(Completed::Returned), Some(Way::Return));
        assert_eq!(of(Completed::Plain), None);
        assert_eq!(of(Completed::Halted), None);
    }

    #[test]
    fn a_log_has_a_record_for_each_of_1000_instructions() {
        assert_eq!(LOG_BYTES, 6000);
    }

    #[test]
    fn a_refused_image_prints_its_number_alone() {
        assert_eq!(printed_log(&[]), "refused 1\n");
    }
}
