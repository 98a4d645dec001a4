//! What the live frame has for a list that a call is about to hand on.

use crate::records::fetch_check;
use reference::checks::{check_reference, has_flag, live_check, static_check, word_exists, Flag};
use reference::record::{Capability, ARGUMENT_POINTER, FRAMES};
use reference::words::{Instruction, Opcode, Pointer};
use reference::{Fault, Machine, SEGMENT_WORDS};

/// Why a list is not covered. Each gives 24; the first two do so when word 0
/// is read, before the cover is judged.
#[derive(Clone, Copy, Debug, PartialEq, Eq)]
pub enum Uncovered {
    /// No frame is in use.
    NoFrame,
    /// No read capability covers word 0.
    FirstWord,
    /// The list would pass word 4,095.
    PastTheEnd,
    /// A capability covers the list for writing alone.
    WriteOnly,
    /// Read capabilities cover each word, none all of them.
    Together,
    /// A word other than word 0 is covered by no read capability.
    Partly,
}

/// All of them, in order.
pub const UNCOVERED: [Uncovered; 6] = [
    Uncovered::NoFrame,
    Uncovered::FirstWord,
    Uncovered::PastTheEnd,
    Uncovered::WriteOnly,
    Uncovered::Together,
    Uncovered::Partly,
];

/// What there is for a list about to be handed on.
#[derive(Clone, Copy, Debug, PartialEq, Eq)]
pub enum Found {
    Uncovered(Uncovered),
    Covered {
        /// The first covering capability's source, and the last one's.
        sources: [u8; 2],
        /// Whether a word's first match fails before a covering capability.
        failing_word: bool,
    },
}

/// The word that a pointer names, if it exists.
fn word_at(machine: &Machine, memory: &[u32], place: Pointer) -> Option<u32> {
    if !word_exists(machine, place.segment, place.word) {
        return None;
    }
    let before = &machine.segments[..usize::from(place.segment)];
    let first: usize = before.iter().map(|row| usize::from(row.length)).sum();
    memory.get(first + usize::from(place.word)).copied()
}

/// What is found for the list of the next instruction, if that is a call
/// through a gate with a tagged a.
pub fn next_list(machine: &Machine, memory: &[u32]) -> Option<Found> {
    fetch_check(machine).ok()?;
    let at = Pointer::untagged(machine.location.segment, machine.location.word);
    let instruction = Instruction::from_word(word_at(machine, memory, at)?).ok()?;
    find(machine, memory, instruction)
}

/// What is found for the list of a call about to be made through a gate with a
/// tagged a; nothing if the call ends before the cover is judged, other than
/// with word 0's 24.
pub(super) fn find(machine: &Machine, memory: &[u32], instruction: Instruction) -> Option<Found> {
    let a = machine.pointers[ARGUMENT_POINTER];
    if instruction.opcode != Opcode::Call || !a.tag {
        return None;
    }
    let target = effective_pointer(machine, memory, instruction)?;
    if !is_open_gate(machine, target) {
        return None;
    }
    let Some(frame) = machine.live_frame() else {
        return Some(Found::Uncovered(Uncovered::NoFrame));
    };
    match live_check(machine, a.segment, a.word, Flag::Read) {
        Err(Fault::NoCapability) => return Some(Found::Uncovered(Uncovered::FirstWord)),
        Err(_) => return None,
        Ok(()) => {}
    }
    let n = word_at(machine, memory, a).filter(|&n| n <= 8)?;
    Some(cover(machine, frame.capabilities(), a, 3 + 2 * n as u16))
}

/// The effective pointer of an instruction, if it is formed.
fn effective_pointer(
    machine: &Machine,
    memory: &[u32],
    instruction: Instruction,
) -> Option<Pointer> {
    let base = machine.pointers[usize::from(instruction.base)];
    let first = base.plus(instruction.offset).ok()?;
    if !instruction.indirect {
        return Some(first);
    }
    check_reference(machine, first, Flag::Read).ok()?;
    let mut pointer = Pointer::from_word(word_at(machine, memory, first)?).ok()?;
    pointer.tag |= first.tag;
    Some(pointer)
}

/// Whether a call of this word goes on to its argument list.
fn is_open_gate(machine: &Machine, target: Pointer) -> bool {
    let has = |flag| has_flag(machine, machine.domain, target.segment, flag);
    !target.tag
        && word_exists(machine, target.segment, target.word)
        && !has(Flag::Execute)
        && has(Flag::Gate)
        && target.word < machine.segments[usize::from(target.segment)].gate_count
        && usize::from(machine.frame_count) < FRAMES
}

/// How a list of `length` words at a is covered; word 0 can be read.
fn cover(machine: &Machine, capabilities: &[Capability], a: Pointer, length: u16) -> Found {
    let all = |row: &Capability| row.covers(a.segment, a.word, length);
    let one = |row: &Capability, k: u16| row.read && row.covers(a.segment, a.word + k, 1);
    let mut covering = capabilities.iter().filter(|row| row.read && all(row));
    if let Some(first) = covering.next() {
        let last = covering.next_back().unwrap_or(first);
        let place = capabilities.iter().rposition(|row| row.read && all(row));
        let fails = |&k: &u16| live_check(machine, a.segment, a.word + k, Flag::Read).is_err();
        let failing = (1..length).filter(|&k| k != 2).find(fails);
        let failing = failing.and_then(|k| capabilities.iter().position(|row| one(row, k)));
        return Found::Covered {
            sources: [first.source, last.source],
            failing_word: failing.is_some() && failing < place,
        };
    }
    Found::Uncovered(if a.word + length > SEGMENT_WORDS {
        Uncovered::PastTheEnd
    } else if capabilities.iter().any(all) {
        Uncovered::WriteOnly
    } else if (0..length).all(|k| capabilities.iter().any(|row| one(row, k))) {
        Uncovered::Together
    } else {
        Uncovered::Partly
    })
}

/// Whether an instruction reads a word through the list capability of the live
/// frame, and may do so by its source and not by the caller's own rights.
pub(super) fn reads_by_passed_on_source(machine: &Machine, instruction: Instruction) -> bool {
    let reads = matches!(instruction.opcode, Opcode::Load | Opcode::Add | Opcode::Sub);
    let base = machine.pointers[usize::from(instruction.base)];
    if !base.tag || !(reads || instruction.indirect) {
        return false;
    }
    let (Ok(at), Some(frame)) = (base.plus(instruction.offset), machine.live_frame()) else {
        return false;
    };
    let rows = frame.capabilities();
    let found = rows
        .iter()
        .position(|row| row.read && row.covers(at.segment, at.word, 1));
    let passes = |domain| static_check(machine, domain, at.segment, at.word, Flag::Read).is_ok();
    found.is_some_and(|place| {
        place + 1 == rows.len() && passes(rows[place].source) && !passes(frame.domain)
    })
}
