//! The ten calls of a host, on a machine that it keeps as bytes.
//!
//! A call refuses bytes that hold no sound record: 8 for too few, then 9. A
//! refused call leaves all as it was.

use crate::bytes::{machine_from_bytes, put_record, unjudged, RECORD_BYTES};
use crate::checks::{check_reference, Flag};
use crate::crossings::{logged, LOG_BYTES};
use crate::image::{self, read_image, write_image};
use crate::numbers::Refusal;
use crate::recent::{self, Reference};
use crate::record::Machine;
use crate::run::{self, Processor, Run};
use crate::words::Pointer;

pub use crate::report::entry;

/// Added to a refusal's number where a call answers an index or a length.
pub const REFUSED: u32 = 0x10000;
/// The ending of a run that was refused.
const REFUSED_RUN: u32 = 4;
/// The bit of a step that was a HALT.
const HALTED: u16 = 1 << 8;

/// 0, or the number of the refusal.
fn number(answer: Result<(), Refusal>) -> u8 {
    answer.map_or_else(Refusal::number, |()| 0)
}

/// Reads an image into a record, whatever its bytes are, and its words: 0, or
/// 8, 7, then the image's own refusals.
pub fn read(image: &[u8], record: &mut [u8], words: &mut [u32]) -> u8 {
    if record.len() < RECORD_BYTES {
        return Refusal::ShortOutput.number();
    }
    let mut machine = Machine::default();
    let answer = read_image(image, &mut machine, words);
    if answer.is_ok() {
        put_record(&machine, record);
    }
    number(answer)
}

/// At most `limit` instructions.
pub fn run(record: &mut [u8], words: &mut [u32], limit: u16) -> u32 {
    code_of(kept(record, |machine| run::run(machine, words, limit)))
}

/// A run that also stops right after its first completed crossing.
pub fn stretch(record: &mut [u8], words: &mut [u32], limit: u16) -> u32 {
    code_of(kept(record, |machine| run::stretch(machine, words, limit)))
}

/// A run of at most 1,000 instructions that puts a record for each completed
/// crossing into the log, and the totals. Refusals: 8 for the record, 9, 7,
/// then 8 for a log of fewer than 6,000 bytes.
pub fn log(
    record: &mut [u8],
    words: &mut [u32],
    log: &mut [u8],
    calls: &mut u16,
    returns: &mut u16,
) -> u32 {
    code_of(kept(record, |machine| {
        let processor = Processor::new(machine, words)?;
        if log.len() < LOG_BYTES {
            return Err(Refusal::ShortOutput);
        }
        let (run, crossings) = logged(processor);
        crossings.put(log);
        (*calls, *returns) = crossings.totals();
        Ok(run)
    }))
}

/// Makes a call, which judges the machine, and keeps what it made of it.
fn kept<T>(
    record: &mut [u8],
    call: impl FnOnce(&mut Machine) -> Result<T, Refusal>,
) -> Result<T, Refusal> {
    let mut machine = unjudged(record)?;
    let answer = call(&mut machine)?;
    put_record(&machine, record);
    Ok(answer)
}

/// The ending in bits 24 to 31, the number of a fault or refusal in bits 16 to
/// 23, the count in bits 0 to 15.
pub fn code_of(answer: Result<Run, Refusal>) -> u32 {
    let (ending, number, count) = match answer {
        Err(refusal) => (REFUSED_RUN, refusal.number(), 0),
        Ok(Run { ending, count }) => (u32::from(ending.number()), ending.fault(), count),
    };
    ending << 24 | u32::from(number) << 16 | u32::from(count)
}

/// One instruction: the number of a refusal or fault, or 0; bit 8 for a HALT.
pub fn step(record: &mut [u8], words: &mut [u32]) -> u16 {
    let mut machine = match unjudged(record) {
        Err(refusal) => return refusal.number().into(),
        Ok(machine) => machine,
    };
    let step = run::step(&mut machine, words);
    if step.number != 0 {
        return step.number.into();
    }
    put_record(&machine, record);
    if step.halted {
        HALTED
    } else {
        0
    }
}

/// Writes the image of a record and its words: its length, or a refusal.
pub fn write(record: &[u8], words: &[u32], output: &mut [u8]) -> u32 {
    let written = unjudged(record).and_then(|machine| write_image(&machine, words, output));
    match written {
        Err(refusal) => REFUSED + u32::from(refusal.number()),
        Ok(length) => length as u32,
    }
}

/// Puts where a segment begins in the words, and how many it has: 0, or the
/// number of the refusal.
pub fn segment(record: &[u8], words: &[u32], segment: u8, first: &mut u16, count: &mut u16) -> u8 {
    let machine = match unjudged(record) {
        Err(refusal) => return refusal.number(),
        Ok(machine) => machine,
    };
    let number = image::segment_number(&machine, words, segment.into());
    if number == 0 {
        *first = first_word(&machine, segment) as u16;
        *count = machine.segments[usize::from(segment)].length;
    }
    number
}

/// Where a segment of a sound machine begins: after those before it.
fn first_word(machine: &Machine, segment: u8) -> u32 {
    let before = &machine.segments[..usize::from(segment)];
    before.iter().map(|row| u32::from(row.length)).sum()
}

/// The index of the word that the executing domain refers to, or a refusal.
/// Any `write` but 0 asks to write, any `tag` but 0 is on. Only a copy of the
/// registers is renewed.
pub fn check(record: &[u8], write: u8, tag: u8, segment: u8, word: u16) -> u32 {
    let machine = match machine_from_bytes(record) {
        Err(refusal) => return REFUSED + u32::from(refusal.number()),
        Ok(machine) => machine,
    };
    let tag = tag != 0;
    let flag = if write == 0 { Flag::Read } else { Flag::Write };
    let pointer = Pointer { tag, segment, word };
    let mut copy = machine.recent;
    let checked = match tag {
        true => recent::refer(&machine, &mut copy, Reference::new(pointer, flag)),
        false => check_reference(&machine, pointer, flag),
    };
    match checked {
        Err(fault) => REFUSED + u32::from(fault.number()),
        Ok(()) => first_word(&machine, segment) + u32::from(word),
    }
}

/// Makes a record the fresh machine of its layout: 0, or the refusal.
pub fn restart(record: &mut [u8]) -> u8 {
    number(machine_from_bytes(record).map(|mut machine| {
        machine.restart();
        put_record(&machine, record);
    }))
}
