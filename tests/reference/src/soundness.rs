//! Soundness of a machine record, whatever it holds.

use crate::checks::{has_flag, Flag};
use crate::recent::{may_hold, Recent};
use crate::record::{
    Capability, Domain, Frame, Location, Machine, Segment, CAPABILITIES, DOMAINS, FRAMES, SEGMENTS,
};
use crate::words::Pointer;
use crate::{MEMORY_WORDS, SEGMENT_WORDS};

/// Highest rights byte: all four flags.
const ALL_RIGHTS: u8 = 15;

/// Whether every range holds, every domain and stack segment named exists, no
/// gate is dead and every unused row is zero.
pub fn is_sound(machine: &Machine) -> bool {
    let counts = (1..=SEGMENTS).contains(&usize::from(machine.segment_count))
        && (1..=DOMAINS).contains(&usize::from(machine.domain_count));
    counts
        && segments_sound(machine)
        && domains_sound(machine)
        && gates_sound(machine)
        && registers_sound(machine)
        && frames_sound(machine)
        && recent_sound(machine)
}

/// Whether the segments' rows are good and together have at most 8,192 words.
fn segments_sound(machine: &Machine) -> bool {
    let (used, unused) = machine
        .segments
        .split_at(usize::from(machine.segment_count));
    let total: usize = used.iter().map(|row| usize::from(row.length)).sum();
    let row_sound = |row: &Segment| {
        (1..=SEGMENT_WORDS).contains(&row.length)
            && row.gate_count <= row.length
            && row.gate_domain < machine.domain_count
    };
    total <= MEMORY_WORDS
        && used.iter().all(row_sound)
        && unused.iter().all(|row| *row == Segment::default())
}

/// Whether the domains' rows are good; rights on absent segments are 0.
fn domains_sound(machine: &Machine) -> bool {
    let segment_count = usize::from(machine.segment_count);
    let (used, unused) = machine.domains.split_at(usize::from(machine.domain_count));
    let row_sound = |row: &Domain| {
        let (on_used, on_unused) = row.rights.split_at(segment_count);
        usize::from(row.stack_segment) < segment_count
            && on_used.iter().all(|&rights| rights <= ALL_RIGHTS)
            && on_unused.iter().all(|&rights| rights == 0)
    };
    used.iter().all(row_sound) && unused.iter().all(|row| *row == Domain::default())
}

/// Whether the gate domain of each segment with gates has E on it.
pub(crate) fn gates_sound(machine: &Machine) -> bool {
    let mut rows = (0..machine.segment_count).zip(&machine.segments);
    rows.all(|(segment, row)| {
        row.gate_count == 0 || has_flag(machine, row.gate_domain, segment, Flag::Execute)
    })
}

/// Whether pointers, location, executing domain and start are in range.
fn registers_sound(machine: &Machine) -> bool {
    let Location { segment, word } = machine.location;
    machine.pointers.iter().all(|&p| pointer_sound(p))
        && usize::from(segment) < SEGMENTS
        && word <= SEGMENT_WORDS
        && machine.domain < machine.domain_count
        && machine.start_domain < machine.domain_count
        && machine.start.segment < machine.segment_count
        && machine.start.word < SEGMENT_WORDS
}

/// Whether a pointer is in range; its segment need not exist.
fn pointer_sound(pointer: Pointer) -> bool {
    usize::from(pointer.segment) < SEGMENTS && pointer.word < SEGMENT_WORDS
}

/// Whether the frames in use are good and the free ones are zero.
fn frames_sound(machine: &Machine) -> bool {
    let count = usize::from(machine.frame_count);
    if count > FRAMES {
        return false;
    }
    let (used, free) = machine.frames.split_at(count);
    used.iter().all(|frame| frame_sound(machine, frame))
        && free.iter().all(|frame| *frame == Frame::default())
}

/// Whether a frame in use is good.
fn frame_sound(machine: &Machine, frame: &Frame) -> bool {
    let count = usize::from(frame.capability_count);
    if !(1..=CAPABILITIES).contains(&count) {
        return false;
    }
    let (used, unused) = frame.capabilities.split_at(count);
    pointer_sound(frame.return_location)
        && !frame.return_location.tag
        && pointer_sound(frame.s)
        && frame.domain < machine.domain_count
        && used.iter().all(|row| capability_sound(machine, row))
        && unused.iter().all(|row| *row == Capability::default())
}

/// Whether a capability is one that a mode word could ask for.
fn capability_sound(machine: &Machine, row: &Capability) -> bool {
    let end = u32::from(row.word) + u32::from(row.length);
    usize::from(row.segment) < SEGMENTS
        && row.length >= 1
        && end <= u32::from(SEGMENT_WORDS)
        && (row.read || row.write)
        && row.source < machine.domain_count
}

/// Whether the registers' recency numbers are 0 to 15, each once, and what they
/// hold is good.
fn recent_sound(machine: &Machine) -> bool {
    let mut numbers = machine.recent.map(|row| row.recency);
    numbers.sort_unstable();
    (0..).zip(numbers).all(|(due, number)| number == due)
        && machine
            .recent
            .iter()
            .all(|row| register_sound(machine, row))
}

/// Whether a register is empty and zero, or holds a capability that its frame
/// in use has and that may be entered.
pub fn register_sound(machine: &Machine, row: &Recent) -> bool {
    let Some(index) = usize::from(row.frame).checked_sub(1) else {
        return row.capability == Capability::default();
    };
    let count = usize::from(machine.frame_count).min(FRAMES);
    let used = &machine.frames[..count];
    used.get(index)
        .is_some_and(|frame| may_hold(frame, &row.capability))
}
