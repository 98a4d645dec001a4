//! What a batch of images reached when the reference ran them.

use crate::handed_on::{self, HandedOn};
use crate::recent::Recents;
use crate::records::fetch_check;
use crate::DeadGates;
use reference::record::{ARGUMENT_POINTER, SEGMENTS};
use reference::words::{Instruction, OPCODES};
use reference::{read_image, Completed, Ending, Fault, Machine, Processor, Refusal, Run};
use std::fmt;

/// Upper borders of the histogram of instructions per run.
const BORDERS: [u32; 8] = [0, 4, 9, 19, 49, 99, 499, 65_535];

/// Upper borders of the histogram of crossings per run.
const CROSSINGS: [u32; 5] = [0, 1, 9, 99, 65_535];

/// Numbers that the reader of an image refuses it with.
pub const REFUSALS: [u8; 7] = [1, 2, 3, 4, 5, 6, 10];

/// Counts over a batch.
#[derive(Clone, Debug, Default)]
pub struct Reached {
    pub images: u64,
    /// Completed instructions by opcode.
    pub completed: [u64; 13],
    /// Faults 21 to 32.
    pub faults: [u64; 12],
    /// Faults by opcode; the last row is for words that are no instruction
    /// or could not be fetched.
    pub faults_at: [[u64; 12]; 14],
    /// Fetches that gave 22.
    pub fetches_without_execute: u64,
    /// Images by what was done to their gates.
    pub dead_gates: DeadGates,
    /// Refusals, by their places in `REFUSALS`.
    pub refusals: [u64; REFUSALS.len()],
    pub halted: u64,
    pub spent: u64,
    /// Stretches that ended after a crossing.
    pub crossed: u64,
    /// Crossing calls by number of arguments.
    pub calls: [u64; 9],
    pub calls_inside: u64,
    pub tagged_returns: u64,
    /// Runs by their calls with a tagged a.
    pub handed_on: HandedOn,
    /// Runs by what they did with the registers.
    pub recents: Recents,
    pub passed_on: u64,
    pub tagged_indirect: u64,
    /// Runs by the most frames that were in use.
    pub frames: [u64; 9],
    /// Runs by instructions completed.
    pub lengths: [u64; 8],
    /// Runs in which 20 or more instructions completed.
    pub twenty: u64,
    /// Runs by completed crossings: none, 1, 2 to 9, 10 to 99, 100 or more.
    pub crossings: [u64; 5],
    /// Runs that faulted after a crossing.
    pub faults_after_crossing: u64,
    /// Runs that crossed and ended with frames in use.
    pub left_in_frames: u64,
}

impl Reached {
    /// Reads an image, runs it up to the limit, and counts. Gives the machine
    /// and the run, or the refusal.
    pub fn observe(
        &mut self,
        image: &[u8],
        memory: &mut [u32],
        limit: u16,
    ) -> Result<(Machine, Run), Refusal> {
        let mut machine = Machine::default();
        let read = read_image(image, &mut machine, memory);
        self.count_read(read.map_or_else(Refusal::number, |()| 0));
        read?;
        let run = self.observe_run(&mut machine, memory, limit, false)?;
        Ok((machine, run))
    }

    /// Counts an image by the number that its reader gave.
    pub fn count_read(&mut self, number: u8) {
        self.images += 1;
        if let Some(place) = REFUSALS.iter().position(|&refusal| refusal == number) {
            self.refusals[place] += 1;
        }
    }

    /// Runs a machine up to the limit, or makes a stretch of it, and counts.
    pub fn observe_run(
        &mut self,
        machine: &mut Machine,
        memory: &mut [u32],
        limit: u16,
        stop_at_crossing: bool,
    ) -> Result<Run, Refusal> {
        let first_words = first_words(machine);
        let mut processor = Processor::new(machine, memory)?;
        let (mut count, mut frames, mut crossings) = (0, 0, 0);
        let mut in_run = (HandedOn::default(), Recents::default());
        let mut ending = Ending::Spent;
        while count < limit && ending == Ending::Spent {
            let outcome = self.observe_step(&mut processor, &first_words, &mut in_run);
            crossings += u32::from(outcome.is_ok_and(Completed::is_crossing));
            match outcome {
                Err(fault) => ending = Ending::Faulted(fault),
                Ok(Completed::Halted) => ending = Ending::Halted,
                Ok(completed) if stop_at_crossing && completed.is_crossing() => {
                    ending = Ending::Crossed;
                }
                Ok(_) => {}
            }
            count += u16::from(ending.fault() == 0);
            frames = frames.max(processor.machine().frame_count);
        }
        let (handed_on, recents) = in_run;
        self.handed_on.add_run(&handed_on);
        self.recents.add_run(recents);
        self.count_ending(ending, count, frames);
        self.count_crossings(crossings, ending, processor.machine());
        Ok(Run { ending, count })
    }

    /// Counts a run by its crossings, and how it ended after some.
    fn count_crossings(&mut self, crossings: u32, ending: Ending, machine: &Machine) {
        let bucket = CROSSINGS.iter().position(|&border| crossings <= border);
        self.crossings[bucket.unwrap_or(4)] += 1;
        if crossings > 0 {
            self.faults_after_crossing += u64::from(ending.fault() != 0);
            self.left_in_frames += u64::from(machine.frame_count > 0);
        }
    }

    fn count_ending(&mut self, ending: Ending, count: u16, frames: u8) {
        match ending {
            Ending::Halted => self.halted += 1,
            Ending::Faulted(fault) => self.faults[usize::from(fault.number()) - 21] += 1,
            Ending::Spent => self.spent += 1,
            Ending::Crossed => self.crossed += 1,
        }
        self.frames[usize::from(frames)] += 1;
        self.twenty += u64::from(count >= 20);
        let count = u32::from(count);
        let bucket = BORDERS.iter().position(|&border| count <= border);
        self.lengths[bucket.unwrap_or(7)] += 1;
    }

    fn observe_step(
        &mut self,
        processor: &mut Processor,
        first_words: &[usize; SEGMENTS],
        (handed_on, recents): &mut (HandedOn, Recents),
    ) -> Result<Completed, Fault> {
        let at = processor.machine().location;
        let address = first_words[usize::from(at.segment)] + usize::from(at.word);
        let word = processor.memory().get(address).copied().unwrap_or(0);
        let pointers = processor.machine().pointers;
        let fetch = fetch_check(processor.machine());
        self.fetches_without_execute += u64::from(fetch == Err(Fault::FlagMissing));
        let instruction = fetch.and_then(|()| Instruction::from_word(word));
        let Ok(instruction) = instruction else {
            let outcome = processor.step();
            self.count_fault(outcome.err(), 13);
            return outcome;
        };
        let machine = processor.machine().clone();
        let before = handed_on::Before::new(&machine, processor.memory(), instruction);
        let outcome = processor.step();
        handed_on.count(before, outcome);
        recents.count(&machine, instruction, outcome, processor);
        let opcode = instruction.opcode as usize;
        self.count_fault(outcome.err(), opcode);
        let completed = outcome?;
        self.completed[opcode] += 1;
        let tagged = pointers[usize::from(instruction.base)].tag;
        self.tagged_indirect += u64::from(instruction.indirect && tagged);
        match completed {
            Completed::Called => self.count_call(processor, first_words),
            Completed::Returned => self.tagged_returns += 1,
            Completed::Plain if opcode == 8 => self.calls_inside += 1,
            Completed::Plain | Completed::Halted => {}
        }
        Ok(completed)
    }

    /// Counts a fault, if there is one, under an opcode.
    fn count_fault(&mut self, fault: Option<Fault>, opcode: usize) {
        if let Some(fault) = fault {
            self.faults_at[opcode][usize::from(fault.number()) - 21] += 1;
        }
    }

    /// Counts a crossing call just made: its arguments, and those of them
    /// whose pointer words are tagged.
    fn count_call(&mut self, processor: &Processor, first_words: &[usize; SEGMENTS]) {
        let machine = processor.machine();
        let list = machine.pointers[ARGUMENT_POINTER];
        let first = first_words[usize::from(list.segment)] + usize::from(list.word);
        let n = processor.memory()[first] as usize;
        self.calls[n] += 1;
        let arguments = first + 3..first + 3 + 2 * n;
        let words = processor.memory().get(arguments).unwrap_or(&[]);
        let tagged = words.iter().step_by(2).filter(|&word| word >> 31 == 1);
        self.passed_on += tagged.count() as u64;
    }

    /// Lines about calls, returns and arguments.
    fn print_calls(&self, out: &mut fmt::Formatter) -> fmt::Result {
        row(out, "crossing calls by arguments", 0.., &self.calls)?;
        row(out, "runs by most frames in use", 0.., &self.frames)?;
        writeln!(out, "calls inside a domain {}", self.calls_inside)?;
        write!(out, "{}{}", self.handed_on, self.recents)?;
        writeln!(out, "tagged returns {}", self.tagged_returns)?;
        writeln!(out, "passed-on arguments {}", self.passed_on)?;
        writeln!(out, "tagged indirect reads {}", self.tagged_indirect)
    }
}

/// Where each segment begins in the memory.
fn first_words(machine: &Machine) -> [usize; SEGMENTS] {
    let mut next = 0;
    machine.segments.map(|row| {
        let first = next;
        next += usize::from(row.length);
        first
    })
}

impl fmt::Display for Reached {
    fn fmt(&self, out: &mut fmt::Formatter) -> fmt::Result {
        writeln!(out, "images {}", self.images)?;
        let faults: u64 = self.faults.iter().sum();
        let refused: u64 = self.refusals.iter().sum();
        let (halted, spent, crossed) = (self.halted, self.spent, self.crossed);
        writeln!(
            out,
            "endings: halted {halted} faulted {faults} spent {spent} crossed {crossed} refused {refused}"
        )?;
        writeln!(out, "completed by opcode:")?;
        for (opcode, count) in OPCODES.iter().zip(self.completed) {
            writeln!(out, "  {:5} {count}", name(*opcode as usize))?;
        }
        row(out, "faults", 21.., &self.faults)?;
        for (opcode, counts) in self.faults_at.iter().enumerate() {
            row(out, &format!("  faults at {}", name(opcode)), 21.., counts)?;
        }
        let fetches = self.fetches_without_execute;
        writeln!(out, "fetches that gave 22 {fetches}")?;
        row(out, "refusals", REFUSALS, &self.refusals)?;
        write!(out, "{}", self.dead_gates)?;
        self.print_calls(out)?;
        writeln!(out, "matches failed by source {}", self.faults[4])?;
        up_to(
            out,
            "runs by instructions completed",
            &BORDERS,
            &self.lengths,
        )?;
        up_to(out, "runs by crossings", &CROSSINGS, &self.crossings)?;
        writeln!(
            out,
            "runs that crossed and then faulted {}, ended with frames in use {}",
            self.faults_after_crossing, self.left_in_frames
        )?;
        let runs: u64 = self.lengths.iter().sum();
        let share = 100.0 * self.twenty as f64 / runs.max(1) as f64;
        writeln!(out, "runs with 20 or more instructions {share:.1}%")
    }
}

/// The name of an opcode.
fn name(opcode: usize) -> String {
    let known = OPCODES.get(opcode);
    known.map_or("others".to_string(), |o| format!("{o:?}").to_uppercase())
}

/// A line of counts, each under its upper border.
fn up_to(out: &mut fmt::Formatter, title: &str, borders: &[u32], counts: &[u64]) -> fmt::Result {
    write!(out, "{title}:")?;
    for (border, count) in borders.iter().zip(counts) {
        write!(out, " <={border}: {count}")?;
    }
    writeln!(out)
}

/// A line of counts, each under its number.
fn row(
    out: &mut fmt::Formatter,
    title: &str,
    numbers: impl IntoIterator<Item = u8>,
    counts: &[u64],
) -> fmt::Result {
    write!(out, "{title}:")?;
    for (number, count) in numbers.into_iter().zip(counts) {
        write!(out, " {number}: {count}")?;
    }
    writeln!(out)
}
