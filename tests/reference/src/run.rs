//! Steps, runs and stretches.

use crate::instructions::Completed;
use crate::numbers::{Fault, Refusal};
use crate::recent::{Reference, Registers};
use crate::record::{Machine, SEGMENTS};
use crate::soundness::is_sound;
use crate::MEMORY_WORDS;

/// A sound machine together with its memory, ready to execute. The record is
/// judged once; every instruction keeps it sound.
pub struct Processor<'a> {
    pub(crate) machine: &'a mut Machine,
    pub(crate) memory: &'a mut [u32],
    first_words: [usize; SEGMENTS],
    /// Whether live checks use and renew the registers.
    pub(crate) uses_registers: bool,
    /// The copy of the registers that an instruction works on, once it has used
    /// one.
    pub(crate) renewed: Option<Registers>,
    /// The references through tagged pointers that passed in an instruction.
    pub(crate) made: Vec<Reference>,
}

impl<'a> Processor<'a> {
    /// Takes machine and memory; 9 for an unsound record, then 7 for a short
    /// memory.
    pub fn new(machine: &'a mut Machine, memory: &'a mut [u32]) -> Result<Processor<'a>, Refusal> {
        accept(machine, memory)?;
        let first_words = first_words(machine);
        Ok(Processor {
            machine,
            memory,
            first_words,
            uses_registers: true,
            renewed: None,
            made: Vec::new(),
        })
    }

    /// The same processor without registers: each live check is the full
    /// search, and what the record has in its registers stays.
    pub fn without_registers(self) -> Processor<'a> {
        Processor {
            uses_registers: false,
            ..self
        }
    }

    /// The record as the last instruction left it.
    pub fn machine(&self) -> &Machine {
        self.machine
    }

    /// The memory as the last instruction left it.
    pub fn memory(&self) -> &[u32] {
        self.memory
    }

    /// The references through tagged pointers that passed in the last
    /// instruction, in order, also if it then gave a fault.
    pub fn made(&self) -> &[Reference] {
        &self.made
    }

    /// Where an existing word lies in the memory.
    #[inline(always)]
    pub(crate) fn address(&self, segment: u8, word: u16) -> usize {
        self.first_words[usize::from(segment)] + usize::from(word)
    }

    /// Instructions up to the limit, or up to HALT or a fault, or right after
    /// the first crossing if that is asked for.
    #[inline(always)]
    fn execute_up_to(&mut self, limit: u16, stop_at_crossing: bool) -> Run {
        let mut count = 0;
        while count < limit {
            let completed = match self.step() {
                Ok(completed) => completed,
                Err(fault) => return Run::new(Ending::Faulted(fault), count),
            };
            count += 1;
            if completed == Completed::Halted {
                return Run::new(Ending::Halted, count);
            }
            if stop_at_crossing && completed.is_crossing() {
                return Run::new(Ending::Crossed, count);
            }
        }
        Run::new(Ending::Spent, count)
    }
}

/// Judges a call's record (9) and memory (7).
pub(crate) fn accept(machine: &Machine, memory: &[u32]) -> Result<(), Refusal> {
    if !is_sound(machine) {
        return Err(Refusal::NotSound);
    }
    if memory.len() < MEMORY_WORDS {
        return Err(Refusal::ShortMemory);
    }
    Ok(())
}

/// Where each segment of a sound machine begins: they follow one another.
pub(crate) fn first_words(machine: &Machine) -> [usize; SEGMENTS] {
    let mut next = 0;
    machine.segments.map(|row| {
        let first = next;
        next += usize::from(row.length);
        first
    })
}

/// How a run or stretch ended.
#[derive(Clone, Copy, Debug, PartialEq, Eq)]
pub enum Ending {
    /// At a HALT.
    Halted,
    /// At an instruction that gave a fault.
    Faulted(Fault),
    /// At the limit.
    Spent,
    /// Right after a crossing; stretches only.
    Crossed,
}

impl Ending {
    /// The ending's number: 0 halted, 1 faulted, 2 spent, 3 crossed.
    pub fn number(self) -> u8 {
        match self {
            Ending::Halted => 0,
            Ending::Faulted(_) => 1,
            Ending::Spent => 2,
            Ending::Crossed => 3,
        }
    }

    /// The fault's number, or 0.
    pub fn fault(self) -> u8 {
        match self {
            Ending::Faulted(fault) => fault.number(),
            _ => 0,
        }
    }
}

/// Ending of a run and number of instructions completed, HALT counted.
#[derive(Clone, Copy, Debug, PartialEq, Eq)]
pub struct Run {
    pub ending: Ending,
    pub count: u16,
}

impl Run {
    pub(crate) fn new(ending: Ending, count: u16) -> Run {
        Run { ending, count }
    }
}

/// Answer of a single step: 0, a refusal or a fault, and whether it halted.
#[derive(Clone, Copy, Debug, PartialEq, Eq)]
pub struct Step {
    pub number: u8,
    pub halted: bool,
}

/// One instruction: 9, then 7, then the instruction's own fault.
pub fn step(machine: &mut Machine, memory: &mut [u32]) -> Step {
    let (number, halted) = match Processor::new(machine, memory) {
        Err(refusal) => (refusal.number(), false),
        Ok(mut processor) => match processor.step() {
            Err(fault) => (fault.number(), false),
            Ok(completed) => (0, completed == Completed::Halted),
        },
    };
    Step { number, halted }
}

/// Instructions up to the limit, a HALT or a fault.
pub fn run(machine: &mut Machine, memory: &mut [u32], limit: u16) -> Result<Run, Refusal> {
    Ok(Processor::new(machine, memory)?.execute_up_to(limit, false))
}

/// A run that also stops right after its first completed crossing.
pub fn stretch(machine: &mut Machine, memory: &mut [u32], limit: u16) -> Result<Run, Refusal> {
    Ok(Processor::new(machine, memory)?.execute_up_to(limit, true))
}

/// A run by full searches alone, without registers.
pub fn run_without_registers(
    machine: &mut Machine,
    memory: &mut [u32],
    limit: u16,
) -> Result<Run, Refusal> {
    let processor = Processor::new(machine, memory)?;
    Ok(processor.without_registers().execute_up_to(limit, false))
}

/// A stretch by full searches alone, without registers.
pub fn stretch_without_registers(
    machine: &mut Machine,
    memory: &mut [u32],
    limit: u16,
) -> Result<Run, Refusal> {
    let processor = Processor::new(machine, memory)?;
    Ok(processor.without_registers().execute_up_to(limit, true))
}
