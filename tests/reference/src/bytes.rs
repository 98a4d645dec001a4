//! The machine record as 1,079 bytes, each part at a fixed place.
//!
//! | from byte | what is there |
//! |---|---|
//! | 0, 32 | for each of sixteen segments its length (2 bytes); for each its gates (2) |
//! | 64 | where execution starts: word (2), segment, domain |
//! | 68, 84 | for each segment the domain of its gates; for each of eight domains its stack segment |
//! | 92 | for each domain its rights on the sixteen segments |
//! | 220, 221 | how many segments, how many domains |
//! | 222 | A (4), location (word 2, segment), executing domain |
//! | 230 | eight pointers of 4 bytes: word (2), segment, tag |
//! | 262 | how many frames are in use |
//! | 263 | eight frames of 82 bytes |
//! | 919 | sixteen registers of recent capabilities, of 10 bytes |
//!
//! In a frame: how many capabilities (0), nine capabilities of 8 bytes (1), s
//! (73), return location (77), calling domain (81). A capability: word (2),
//! length (2), segment, source, read, write. A register: a capability, the number
//! of its frame (8), its recency number (9). Numbers are little-endian. Flags are
//! 0 or 1, rows not in use are zeros.

use crate::numbers::Refusal;
use crate::recent::{Recent, REGISTERS};
use crate::record::{
    Capability, Domain, Frame, Location, Machine, Segment, CAPABILITIES, DOMAINS, FRAMES, SEGMENTS,
};
use crate::soundness::is_sound;
use crate::words::Pointer;

/// Bytes of a record.
pub const RECORD_BYTES: usize = 1079;

const LENGTHS: usize = 0;
const GATES: usize = 32;
const START: usize = 64;
const GATE_DOMAINS: usize = 68;
const STACKS: usize = 84;
const RIGHTS: usize = 92;
const SEGMENT_COUNT: usize = 220;
const DOMAIN_COUNT: usize = 221;
const A: usize = 222;
const LOCATION: usize = 226;
const DOMAIN: usize = 229;
const POINTERS: usize = 230;
/// Where the number of frames in use, the frames and the registers lie.
pub const DEPTH: usize = 262;
pub const FRAME_ROWS: usize = 263;
pub const RECENT_ROWS: usize = 919;

const POINTER_BYTES: usize = 4;
/// Bytes of a capability, of a frame and of a register.
pub const CAPABILITY_BYTES: usize = 8;
pub const FRAME_BYTES: usize = 82;
pub const RECENT_BYTES: usize = 10;
const FRAME_CAPABILITIES: usize = 1;
const FRAME_S: usize = 73;
const FRAME_RETURN: usize = 77;
const FRAME_DOMAIN: usize = 81;

/// The record's bytes.
pub fn record_bytes(machine: &Machine) -> Vec<u8> {
    let mut bytes = vec![0; RECORD_BYTES];
    put_record(machine, &mut bytes);
    bytes
}

/// Puts the record into the first 1,079 bytes, which are there.
pub fn put_record(machine: &Machine, bytes: &mut [u8]) {
    let bytes = &mut bytes[..RECORD_BYTES];
    for (row, segment) in machine.segments.iter().enumerate() {
        put_pair(bytes, LENGTHS + 2 * row, segment.length);
        put_pair(bytes, GATES + 2 * row, segment.gate_count);
        bytes[GATE_DOMAINS + row] = segment.gate_domain;
    }
    for (row, domain) in machine.domains.iter().enumerate() {
        bytes[STACKS + row] = domain.stack_segment;
        let rights = RIGHTS + SEGMENTS * row;
        bytes[rights..rights + SEGMENTS].copy_from_slice(&domain.rights);
    }
    put_location(bytes, START, machine.start);
    bytes[START + 3] = machine.start_domain;
    bytes[SEGMENT_COUNT] = machine.segment_count;
    bytes[DOMAIN_COUNT] = machine.domain_count;
    bytes[A..A + 4].copy_from_slice(&machine.a.to_le_bytes());
    put_location(bytes, LOCATION, machine.location);
    bytes[DOMAIN] = machine.domain;
    for (row, &pointer) in machine.pointers.iter().enumerate() {
        put_pointer(bytes, POINTERS + POINTER_BYTES * row, pointer);
    }
    bytes[DEPTH] = machine.frame_count;
    let frames = bytes[FRAME_ROWS..].chunks_exact_mut(FRAME_BYTES);
    for (bytes, frame) in frames.zip(&machine.frames) {
        put_frame(bytes, frame);
    }
    let registers = bytes[RECENT_ROWS..].chunks_exact_mut(RECENT_BYTES);
    for (bytes, row) in registers.zip(&machine.recent) {
        put_capability(bytes, &row.capability);
        bytes[CAPABILITY_BYTES] = row.frame;
        bytes[CAPABILITY_BYTES + 1] = row.recency;
    }
}

fn put_pair(bytes: &mut [u8], at: usize, value: u16) {
    bytes[at..at + 2].copy_from_slice(&value.to_le_bytes());
}

fn put_location(bytes: &mut [u8], at: usize, location: Location) {
    put_pair(bytes, at, location.word);
    bytes[at + 2] = location.segment;
}

fn put_pointer(bytes: &mut [u8], at: usize, pointer: Pointer) {
    put_pair(bytes, at, pointer.word);
    bytes[at + 2] = pointer.segment;
    bytes[at + 3] = u8::from(pointer.tag);
}

fn put_capability(bytes: &mut [u8], capability: &Capability) {
    put_pair(bytes, 0, capability.word);
    put_pair(bytes, 2, capability.length);
    bytes[4] = capability.segment;
    bytes[5] = capability.source;
    bytes[6] = u8::from(capability.read);
    bytes[7] = u8::from(capability.write);
}

fn put_frame(bytes: &mut [u8], frame: &Frame) {
    bytes[0] = frame.capability_count;
    let rows = bytes[FRAME_CAPABILITIES..FRAME_S].chunks_exact_mut(CAPABILITY_BYTES);
    for (bytes, capability) in rows.zip(&frame.capabilities) {
        put_capability(bytes, capability);
    }
    put_pointer(bytes, FRAME_S, frame.s);
    put_pointer(bytes, FRAME_RETURN, frame.return_location);
    bytes[FRAME_DOMAIN] = frame.domain;
}

/// The record that bytes begin with: 8 for fewer than 1,079, 9 where no sound
/// record has these bytes.
pub fn machine_from_bytes(bytes: &[u8]) -> Result<Machine, Refusal> {
    let machine = unjudged(bytes)?;
    if !is_sound(&machine) {
        return Err(Refusal::NotSound);
    }
    Ok(machine)
}

/// The fields that bytes begin with, whose soundness is still to be judged: 8
/// for fewer than 1,079, 9 for a flag above 1. Each byte is part of a field, so
/// only the bytes of a sound record give one.
pub(crate) fn unjudged(bytes: &[u8]) -> Result<Machine, Refusal> {
    let bytes = bytes.get(..RECORD_BYTES).ok_or(Refusal::ShortOutput)?;
    fields(bytes).ok_or(Refusal::NotSound)
}

fn fields(bytes: &[u8]) -> Option<Machine> {
    let mut machine = Machine {
        segment_count: bytes[SEGMENT_COUNT],
        domain_count: bytes[DOMAIN_COUNT],
        segments: std::array::from_fn(|row| segment(bytes, row)),
        domains: std::array::from_fn(|row| domain(bytes, row)),
        a: u32::from_le_bytes([bytes[A], bytes[A + 1], bytes[A + 2], bytes[A + 3]]),
        location: location(bytes, LOCATION),
        domain: bytes[DOMAIN],
        frame_count: bytes[DEPTH],
        start_domain: bytes[START + 3],
        start: location(bytes, START),
        ..Machine::default()
    };
    for (row, to) in machine.pointers.iter_mut().enumerate() {
        *to = pointer(bytes, POINTERS + POINTER_BYTES * row)?;
    }
    let rows = bytes[FRAME_ROWS..].chunks_exact(FRAME_BYTES);
    for (to, bytes) in machine.frames.iter_mut().zip(rows) {
        *to = frame(bytes)?;
    }
    let rows = bytes[RECENT_ROWS..].chunks_exact(RECENT_BYTES);
    for (to, bytes) in machine.recent.iter_mut().zip(rows) {
        *to = recent(bytes)?;
    }
    Some(machine)
}

fn pair(bytes: &[u8], at: usize) -> u16 {
    u16::from_le_bytes([bytes[at], bytes[at + 1]])
}

fn flag(byte: u8) -> Option<bool> {
    match byte {
        0 => Some(false),
        1 => Some(true),
        _ => None,
    }
}

fn segment(bytes: &[u8], row: usize) -> Segment {
    Segment {
        length: pair(bytes, LENGTHS + 2 * row),
        gate_count: pair(bytes, GATES + 2 * row),
        gate_domain: bytes[GATE_DOMAINS + row],
    }
}

fn domain(bytes: &[u8], row: usize) -> Domain {
    let rights = RIGHTS + SEGMENTS * row;
    Domain {
        stack_segment: bytes[STACKS + row],
        rights: std::array::from_fn(|segment| bytes[rights + segment]),
    }
}

fn location(bytes: &[u8], at: usize) -> Location {
    Location {
        segment: bytes[at + 2],
        word: pair(bytes, at),
    }
}

fn pointer(bytes: &[u8], at: usize) -> Option<Pointer> {
    Some(Pointer {
        tag: flag(bytes[at + 3])?,
        segment: bytes[at + 2],
        word: pair(bytes, at),
    })
}

fn capability(bytes: &[u8]) -> Option<Capability> {
    Some(Capability {
        word: pair(bytes, 0),
        length: pair(bytes, 2),
        segment: bytes[4],
        source: bytes[5],
        read: flag(bytes[6])?,
        write: flag(bytes[7])?,
    })
}

fn recent(bytes: &[u8]) -> Option<Recent> {
    Some(Recent {
        capability: capability(bytes)?,
        frame: bytes[CAPABILITY_BYTES],
        recency: bytes[CAPABILITY_BYTES + 1],
    })
}

fn frame(bytes: &[u8]) -> Option<Frame> {
    let mut frame = Frame {
        capability_count: bytes[0],
        s: pointer(bytes, FRAME_S)?,
        return_location: pointer(bytes, FRAME_RETURN)?,
        domain: bytes[FRAME_DOMAIN],
        ..Frame::default()
    };
    let rows = bytes[FRAME_CAPABILITIES..FRAME_S].chunks_exact(CAPABILITY_BYTES);
    for (to, bytes) in frame.capabilities.iter_mut().zip(rows) {
        *to = capability(bytes)?;
    }
    Some(frame)
}

/// The parts fill the record.
const _: () = {
    assert!(POINTERS + 8 * POINTER_BYTES == DEPTH);
    assert!(DEPTH + 1 == FRAME_ROWS);
    assert!(CAPABILITY_BYTES + 2 == RECENT_BYTES);
    assert!(FRAME_CAPABILITIES + CAPABILITIES * CAPABILITY_BYTES == FRAME_S);
    assert!(RIGHTS + DOMAINS * SEGMENTS == SEGMENT_COUNT);
    assert!(FRAME_ROWS + FRAMES * FRAME_BYTES == RECENT_ROWS);
    assert!(RECENT_ROWS + REGISTERS * RECENT_BYTES == RECORD_BYTES);
};
