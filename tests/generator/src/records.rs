//! Machine records in the middle of a run, and other sound ones.

use crate::program;
use crate::random::Rng;
use crate::recent::{fill, mend};
use assembler::E;
use reference::checks::{static_check, Flag};
use reference::record::{Capability, Frame, Machine, CAPABILITIES, FRAMES, SEGMENTS};
use reference::words::Pointer;
use reference::{is_sound, read_image, run, Fault, MEMORY_WORDS};

/// A machine with its memory.
#[derive(Clone, Debug)]
pub struct Snapshot {
    pub machine: Machine,
    pub memory: Vec<u32>,
}

/// A machine as a run left it after a random number of instructions. Most
/// have a live frame.
pub fn mid_run(rng: &mut Rng) -> Snapshot {
    loop {
        let mut machine = Machine::default();
        let mut memory = vec![0; MEMORY_WORDS];
        let image = program(rng).bytes();
        if read_image(&image, &mut machine, &mut memory).is_err() {
            continue;
        }
        let limit = rng.below(120) as u16;
        let ran = run(&mut machine, &mut memory, limit).is_ok();
        if ran && (machine.frame_count > 0 || rng.chance(20)) {
            return Snapshot { machine, memory };
        }
    }
}

/// A sound record that need not be one that a run can reach: a mid-run one
/// with some fields changed inside their ranges. A register that a change of the
/// frames leaves with what it may not hold is emptied.
pub fn sound(rng: &mut Rng) -> Snapshot {
    if rng.chance(4) {
        return cannot_execute(rng);
    }
    let mut snapshot = mid_run(rng);
    let machine = &mut snapshot.machine;
    for _ in 0..rng.between(1, 4) {
        change_in_range(rng, machine);
    }
    mend(machine);
    snapshot
}

/// A mid-run record but for one change, after which its domain lacks E where it
/// stands: another domain, another place, or E taken.
pub fn cannot_execute(rng: &mut Rng) -> Snapshot {
    loop {
        let mut snapshot = mid_run(rng);
        let machine = &mut snapshot.machine;
        match rng.below(3) {
            0 => machine.domain = rng.below(u32::from(machine.domain_count)) as u8,
            1 => change_location(rng, machine),
            _ => take_execute(machine),
        }
        if is_sound(machine) && fetch_check(machine) == Err(Fault::FlagMissing) {
            return snapshot;
        }
    }
}

/// Takes E from the executing domain where it stands.
fn take_execute(machine: &mut Machine) {
    let rights = &mut machine.domains[usize::from(machine.domain)].rights;
    rights[usize::from(machine.location.segment)] &= !E;
}

/// The check that the next fetch makes.
pub(crate) fn fetch_check(machine: &Machine) -> Result<(), Fault> {
    let at = machine.location;
    static_check(machine, machine.domain, at.segment, at.word, Flag::Execute)
}

/// Puts the location at a word that the domain may execute; gives where that
/// lies in the memory. A domain that may execute nothing gets the right.
pub fn executable_place(rng: &mut Rng, machine: &mut Machine) -> usize {
    let rights = &mut machine.domains[usize::from(machine.domain)].rights;
    let count = usize::from(machine.segment_count);
    let first = rng.below(count as u32) as usize;
    let mut order = (0..SEGMENTS).map(|k| (first + k) % count);
    let segment = order
        .find(|&segment| rights[segment] & E != 0)
        .unwrap_or(first);
    rights[segment] |= E;
    let word = rng.below(u32::from(machine.segments[segment].length)) as u16;
    machine.location.segment = segment as u8;
    machine.location.word = word;
    let before = &machine.segments[..segment];
    let base: usize = before.iter().map(|row| usize::from(row.length)).sum();
    base + usize::from(word)
}

/// Changes one thing inside its range.
fn change_in_range(rng: &mut Rng, machine: &mut Machine) {
    let domains = u32::from(machine.domain_count);
    let segments = u32::from(machine.segment_count);
    match rng.below(9) {
        0 => {
            let domain = rng.below(domains) as u8;
            let segment = rng.below(segments) as usize;
            let row = machine.segments[segment];
            let executes = row.gate_count > 0 && row.gate_domain == domain;
            let kept = if executes { E } else { 0 };
            let rights = &mut machine.domains[usize::from(domain)].rights;
            rights[segment] = rng.below(16) as u8 | kept;
        }
        1 => {
            let register = rng.below(8) as usize;
            machine.pointers[register] = pointer(rng, machine);
        }
        2 => machine.a = rng.word(),
        3 if usize::from(machine.frame_count) < FRAMES => {
            add_frames(rng, machine, machine.frame_count + 1);
        }
        4 => machine.domain = rng.below(domains) as u8,
        5 => change_location(rng, machine),
        6 | 7 => fill(rng, machine),
        _ => change_capability(rng, machine),
    }
}

/// Adds frames in their ranges until so many are in use.
pub(crate) fn add_frames(rng: &mut Rng, machine: &mut Machine, count: u8) {
    while machine.frame_count < count {
        let frame = frame(rng, machine);
        machine.frames[usize::from(machine.frame_count)] = frame;
        machine.frame_count += 1;
    }
}

/// Moves the location to any place.
fn change_location(rng: &mut Rng, machine: &mut Machine) {
    let place = pointer(rng, machine);
    machine.location.segment = place.segment;
    machine.location.word = place.word + u16::from(place.word == 4095);
}

/// Replaces a capability of the live frame, if there is one.
fn change_capability(rng: &mut Rng, machine: &mut Machine) {
    if machine.frame_count == 0 {
        return;
    }
    let new = capability(rng, machine);
    let live = &mut machine.frames[usize::from(machine.frame_count) - 1];
    let count = u32::from(live.capability_count);
    live.capabilities[rng.below(count) as usize] = new;
}

/// A pointer that mostly names an existing word.
pub(crate) fn pointer(rng: &mut Rng, machine: &Machine) -> Pointer {
    let tag = rng.chance(50);
    let segment = rng.below(u32::from(machine.segment_count)) as u8;
    let length = machine.segments[usize::from(segment)].length;
    let (segment, word) = match rng.below(12) {
        0 => (rng.below(16) as u8, rng.below(4096) as u16),
        1 => (segment, length.min(4095)),
        _ => (segment, rng.below(u32::from(length)) as u16),
    };
    Pointer { tag, segment, word }
}

/// A capability in its ranges.
pub(crate) fn capability(rng: &mut Rng, machine: &Machine) -> Capability {
    let place = pointer(rng, machine);
    let room = 4096 - u32::from(place.word);
    let flags = rng.between(1, 3);
    Capability {
        segment: place.segment,
        word: place.word,
        length: rng.between(1, room.min(12)) as u16,
        read: flags & 1 != 0,
        write: flags & 2 != 0,
        source: rng.below(u32::from(machine.domain_count)) as u8,
    }
}

/// A frame in its ranges.
fn frame(rng: &mut Rng, machine: &Machine) -> Frame {
    let count = rng.between(1, CAPABILITIES as u32);
    let mut frame = Frame {
        capability_count: count as u8,
        return_location: pointer(rng, machine),
        s: machine.pointers[1],
        domain: rng.below(u32::from(machine.domain_count)) as u8,
        ..Frame::default()
    };
    frame.return_location.tag = false;
    for row in &mut frame.capabilities[..count as usize] {
        *row = capability(rng, machine);
    }
    frame
}
