//! Results for the outside: four bytes, or printed lines.

use crate::image::read_image;
use crate::numbers::Refusal;
use crate::record::Machine;
use crate::run::{run, Ending, Run};
use crate::MEMORY_WORDS;

/// Instructions that the printing program allows.
pub const PRINTED_LIMIT: u16 = 1000;

/// Runs an image in a memory of its own; the machine as the run left it.
pub fn run_image(image: &[u8], limit: u16) -> Result<(Machine, Run), Refusal> {
    let mut memory = [0; MEMORY_WORDS];
    let mut machine = Machine::default();
    read_image(image, &mut machine, &mut memory)?;
    let run = run(&mut machine, &mut memory, limit)?;
    Ok((machine, run))
}

/// Runs an image and puts ending, fault and count into the first four bytes
/// of the result. Gives 0 or the refusal: 8, then the image's.
pub fn entry(image: &[u8], limit: u16, result: &mut [u8]) -> u8 {
    let Some(result) = result.first_chunk_mut::<4>() else {
        return Refusal::ShortOutput.number();
    };
    match run_image(image, limit) {
        Err(refusal) => refusal.number(),
        Ok((_, run)) => {
            let [low, high] = run.count.to_le_bytes();
            *result = [run.ending.number(), run.ending.fault(), low, high];
            0
        }
    }
}

/// What a program prints that runs an image for 1,000 instructions.
pub fn printed(image: &[u8]) -> String {
    match run_image(image, PRINTED_LIMIT) {
        Err(refusal) => format!("refused {}\n", refusal.number()),
        Ok((machine, run)) => printed_run(&machine, run),
    }
}

/// Ending, count, domain, location and A, a line each.
pub fn printed_run(machine: &Machine, run: Run) -> String {
    let ending = match run.ending {
        Ending::Halted => "halted".to_string(),
        Ending::Faulted(fault) => format!("fault {}", fault.number()),
        Ending::Spent => "spent".to_string(),
        Ending::Crossed => "crossed".to_string(),
    };
    let at = machine.location;
    format!(
        "end {ending}\ncount {}\ndomain {}\nat {} {}\na {}\n",
        run.count, machine.domain, at.segment, at.word, machine.a
    )
}
