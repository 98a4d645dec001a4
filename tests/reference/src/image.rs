//! The image: its reader, its writer, and a segment's part of the memory.

use crate::numbers::{Fault, Refusal};
use crate::record::{Domain, Location, Machine, Segment, DOMAINS, SEGMENTS};
use crate::run::{accept, first_words};
use crate::soundness::gates_sound;
use crate::words::Pointer;
use crate::{MEMORY_WORDS, SEGMENT_WORDS};

/// Bytes of a chunk's header.
const HEADER_BYTES: usize = 4;
/// Bytes of a kind 2 chunk's body before its words.
const SEGMENT_HEAD: usize = 4;

/// Chunks that are still to be read.
struct Chunks<'a> {
    rest: &'a [u8],
}

impl<'a> Chunks<'a> {
    /// The next chunk's body length; 1 if the header is cut short, 2 if the
    /// kind isn't the one due.
    fn header(&mut self, kind: u16) -> Result<usize, Refusal> {
        let head = self.take(HEADER_BYTES)?;
        if u16::from_le_bytes([head[2], head[3]]) != kind {
            return Err(Refusal::WrongKind);
        }
        Ok(usize::from(u16::from_le_bytes([head[0], head[1]])))
    }

    /// The next bytes; 1 if there are too few.
    fn take(&mut self, length: usize) -> Result<&'a [u8], Refusal> {
        let (head, rest) = self
            .rest
            .split_at_checked(length)
            .ok_or(Refusal::CutShort)?;
        self.rest = rest;
        Ok(head)
    }

    /// The body of a chunk whose length is fixed.
    fn fixed(&mut self, kind: u16, length: usize) -> Result<&'a [u8], Refusal> {
        require(self.header(kind)? == length, Refusal::WrongLength)?;
        self.take(length)
    }
}

/// Refuses unless the condition holds.
fn require(condition: bool, refusal: Refusal) -> Result<(), Refusal> {
    if condition {
        Ok(())
    } else {
        Err(refusal)
    }
}

/// Reads an image into machine and memory: 7, then the image's refusals.
/// Nothing is stored before all is judged; words past the last segment stay.
pub fn read_image(image: &[u8], machine: &mut Machine, memory: &mut [u32]) -> Result<(), Refusal> {
    require(memory.len() >= MEMORY_WORDS, Refusal::ShortMemory)?;
    let mut chunks = Chunks { rest: image };
    let mut fresh = read_machine(&mut chunks)?;
    let bodies = read_segments(&mut chunks, &mut fresh)?;
    read_domains(&mut chunks, &mut fresh)?;
    chunks.fixed(4, 0)?;
    require(gates_sound(&fresh), Refusal::DeadGate)?;
    require(chunks.rest.is_empty(), Refusal::BytesAfterEnd)?;
    fresh.restart();
    *machine = fresh;
    store_words(&bodies, memory);
    Ok(())
}

/// Stores the words of the segments, one segment after the other.
fn store_words(bodies: &[&[u8]], memory: &mut [u32]) {
    let mut rest = memory;
    for body in bodies {
        let (words, after) = rest.split_at_mut(body.len() / 4);
        rest = after;
        for (word, bytes) in words.iter_mut().zip(body.chunks_exact(4)) {
            *word = little_endian(bytes);
        }
    }
}

/// Four bytes as a word.
fn little_endian(bytes: &[u8]) -> u32 {
    u32::from_le_bytes([bytes[0], bytes[1], bytes[2], bytes[3]])
}

/// Kind 1: the counts and the start.
fn read_machine(chunks: &mut Chunks) -> Result<Machine, Refusal> {
    let body = chunks.fixed(1, 8)?;
    let (segment_count, domain_count, start_domain) = (body[0], body[1], body[2]);
    let start = Pointer::from_word(little_endian(&body[4..])).map_err(|_| Refusal::OutOfRange)?;
    let in_range = (1..=SEGMENTS).contains(&usize::from(segment_count))
        && (1..=DOMAINS).contains(&usize::from(domain_count))
        && start_domain < domain_count
        && body[3] == 0
        && !start.tag
        && start.segment < segment_count;
    require(in_range, Refusal::OutOfRange)?;
    Ok(Machine {
        segment_count,
        domain_count,
        start_domain,
        start: Location {
            segment: start.segment,
            word: start.word,
        },
        ..Machine::default()
    })
}

/// Kind 2, one per segment. Gives the bytes of each segment's words.
fn read_segments<'a>(
    chunks: &mut Chunks<'a>,
    machine: &mut Machine,
) -> Result<[&'a [u8]; SEGMENTS], Refusal> {
    let mut bodies: [&[u8]; SEGMENTS] = [&[]; SEGMENTS];
    let mut total = 0;
    let rows = machine.segments.iter_mut().zip(&mut bodies);
    for (row, body) in rows.take(usize::from(machine.segment_count)) {
        (*row, *body) = read_segment(chunks, machine.domain_count, total)?;
        total += usize::from(row.length);
    }
    Ok(bodies)
}

/// One kind 2 chunk, after `total` words: gate count, gate domain, words.
fn read_segment<'a>(
    chunks: &mut Chunks<'a>,
    domain_count: u8,
    total: usize,
) -> Result<(Segment, &'a [u8]), Refusal> {
    let length = chunks.header(2)?;
    let words = length.saturating_sub(SEGMENT_HEAD) / 4;
    let in_range = (1..=usize::from(SEGMENT_WORDS)).contains(&words);
    require(length % 4 == 0 && in_range, Refusal::WrongLength)?;
    require(total + words <= MEMORY_WORDS, Refusal::TooManyWords)?;
    let (head, body) = chunks.take(length)?.split_at(SEGMENT_HEAD);
    let row = Segment {
        length: words as u16,
        gate_count: u16::from_le_bytes([head[0], head[1]]),
        gate_domain: head[2],
    };
    let in_range = row.gate_count <= row.length && row.gate_domain < domain_count && head[3] == 0;
    require(in_range, Refusal::OutOfRange)?;
    Ok((row, body))
}

/// Kind 3, one per domain: stack segment and rights.
fn read_domains(chunks: &mut Chunks, machine: &mut Machine) -> Result<(), Refusal> {
    let segment_count = usize::from(machine.segment_count);
    for index in 0..usize::from(machine.domain_count) {
        let body = chunks.fixed(3, 1 + segment_count)?;
        let (stack_segment, rights) = (body[0], &body[1..]);
        let in_range = stack_segment < machine.segment_count && rights.iter().all(|&r| r <= 15);
        require(in_range, Refusal::OutOfRange)?;
        let mut row = Domain {
            stack_segment,
            ..Domain::default()
        };
        row.rights[..segment_count].copy_from_slice(rights);
        machine.domains[index] = row;
    }
    Ok(())
}

/// Writes the image of a machine: 9, 7, then 8. Gives its length; bytes past
/// it stay.
pub fn write_image(machine: &Machine, memory: &[u32], output: &mut [u8]) -> Result<usize, Refusal> {
    accept(machine, memory)?;
    let length = image_length(machine);
    let output = output.get_mut(..length).ok_or(Refusal::ShortOutput)?;
    let mut writer = Writer { rest: output };
    write_machine(machine, &mut writer);
    write_segments(machine, memory, &mut writer);
    write_domains(machine, &mut writer);
    writer.header(0, 4);
    Ok(length)
}

/// Bytes of the image of a sound machine.
pub fn image_length(machine: &Machine) -> usize {
    let words: usize = machine.segments.iter().map(|r| usize::from(r.length)).sum();
    let segment_count = usize::from(machine.segment_count);
    let domain_bytes = HEADER_BYTES + 1 + segment_count;
    HEADER_BYTES
        + 8
        + segment_count * (HEADER_BYTES + SEGMENT_HEAD)
        + 4 * words
        + usize::from(machine.domain_count) * domain_bytes
        + HEADER_BYTES
}

/// Output that is still to be written; it is long enough.
struct Writer<'a> {
    rest: &'a mut [u8],
}

impl Writer<'_> {
    fn bytes(&mut self, bytes: &[u8]) {
        let (head, rest) = std::mem::take(&mut self.rest).split_at_mut(bytes.len());
        head.copy_from_slice(bytes);
        self.rest = rest;
    }

    fn header(&mut self, length: usize, kind: u16) {
        self.bytes(&(length as u16).to_le_bytes());
        self.bytes(&kind.to_le_bytes());
    }
}

/// Kind 1.
fn write_machine(machine: &Machine, writer: &mut Writer) {
    let start = Pointer::untagged(machine.start.segment, machine.start.word);
    writer.header(8, 1);
    writer.bytes(&[
        machine.segment_count,
        machine.domain_count,
        machine.start_domain,
        0,
    ]);
    writer.bytes(&start.to_word().to_le_bytes());
}

/// Kind 2 for each segment.
fn write_segments(machine: &Machine, memory: &[u32], writer: &mut Writer) {
    let mut rest = memory;
    for row in &machine.segments[..usize::from(machine.segment_count)] {
        let (words, after) = rest.split_at(usize::from(row.length));
        rest = after;
        writer.header(SEGMENT_HEAD + 4 * words.len(), 2);
        writer.bytes(&row.gate_count.to_le_bytes());
        writer.bytes(&[row.gate_domain, 0]);
        for word in words {
            writer.bytes(&word.to_le_bytes());
        }
    }
}

/// Kind 3 for each domain.
fn write_domains(machine: &Machine, writer: &mut Writer) {
    let segment_count = usize::from(machine.segment_count);
    for row in &machine.domains[..usize::from(machine.domain_count)] {
        writer.header(1 + segment_count, 3);
        writer.bytes(&[row.stack_segment]);
        writer.bytes(&row.rights[..segment_count]);
    }
}

/// A segment's part of the memory; empty if refused.
pub fn segment<'a>(machine: &Machine, memory: &'a [u32], number: u32) -> &'a [u32] {
    if segment_number(machine, memory, number) != 0 {
        return &[];
    }
    let index = number as usize;
    let first = first_words(machine)[index];
    &memory[first..first + usize::from(machine.segments[index].length)]
}

/// The number that goes with `segment`: 0, or 9, 7, then 21.
pub fn segment_number(machine: &Machine, memory: &[u32], number: u32) -> u8 {
    if let Err(refusal) = accept(machine, memory) {
        return refusal.number();
    }
    if number >= u32::from(machine.segment_count) {
        return Fault::NoSuchWord.number();
    }
    0
}
