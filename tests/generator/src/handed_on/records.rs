//! Sound records about to hand on a list that no program had there.

use crate::random::Rng;
use crate::recent::{fill, mend};
use crate::records::{self, executable_place, Snapshot};
use assembler::{call, mode, E, G, R, W};
use reference::checks::word_exists;
use reference::record::{Capability, Frame, Machine, ARGUMENT_POINTER, CAPABILITIES, FRAMES};
use reference::words::Pointer;
use reference::SEGMENT_WORDS;

/// A sound record whose next instruction is mostly a call through a gate with a
/// tagged a. The capabilities of the live frame lie on the list in any way. Two
/// in five have six or seven frames in use; three in five have registers filled
/// at random.
pub fn about_to_hand_on(rng: &mut Rng) -> Snapshot {
    loop {
        let mut snapshot = records::sound(rng);
        let machine = &mut snapshot.machine;
        if rng.chance(40) {
            let frames = rng.pick(&[6, 7, 7]);
            records::add_frames(rng, machine, frames);
        }
        if !(1..FRAMES).contains(&usize::from(machine.frame_count)) {
            continue;
        }
        let Some(gate) = open_gate(rng, machine) else {
            continue;
        };
        let base = rng.between(3, 7);
        machine.pointers[base as usize] = gate;
        let address = executable_place(rng, machine);
        put_list(rng, &mut snapshot);
        if rng.chance(60) {
            fill(rng, &mut snapshot.machine);
        }
        mend(&mut snapshot.machine);
        snapshot.memory[address] = call(base, 0).word();
        return snapshot;
    }
}

/// Lets the executing domain call a gate into another one, if there is one.
fn open_gate(rng: &mut Rng, machine: &mut Machine) -> Option<Pointer> {
    let rows = (0..machine.segment_count).zip(&machine.segments);
    let elsewhere = rows.filter(|(_, row)| row.gate_count > 0 && row.gate_domain != machine.domain);
    let gates: Vec<(u8, u16)> = elsewhere
        .map(|(segment, row)| (segment, row.gate_count))
        .collect();
    if gates.is_empty() {
        return None;
    }
    let (segment, count) = rng.pick(&gates);
    let rights = &mut machine.domains[usize::from(machine.domain)].rights;
    rights[usize::from(segment)] = rights[usize::from(segment)] & !E | G;
    let word = rng.below(u32::from(count)) as u16;
    Some(Pointer::untagged(segment, word))
}

/// Puts a list into the memory, lets a point to it and gives the live frame
/// capabilities on it.
fn put_list(rng: &mut Rng, snapshot: &mut Snapshot) {
    let machine = &mut snapshot.machine;
    let words = list_words(rng, machine);
    let list = list_place(rng, machine, words.len() as u16);
    machine.pointers[ARGUMENT_POINTER] = list;
    let before = &machine.segments[..usize::from(list.segment)];
    let first: usize = before.iter().map(|row| usize::from(row.length)).sum();
    for (word, &value) in (list.word..).zip(&words) {
        if word_exists(machine, list.segment, word) {
            snapshot.memory[first + usize::from(word)] = value;
        }
    }
    let count = rng.between(1, CAPABILITIES as u32);
    let mut rows = [Capability::default(); CAPABILITIES];
    rows[..count as usize].fill_with(|| capability(rng, machine, list, words.len() as u32));
    let frame = &mut machine.frames[usize::from(machine.frame_count) - 1];
    *frame = Frame {
        capability_count: count as u8,
        capabilities: rows,
        ..*frame
    };
}

/// A pointer, mostly tagged, to a place where `length` words mostly exist.
fn list_place(rng: &mut Rng, machine: &Machine, length: u16) -> Pointer {
    let place = records::pointer(rng, machine);
    let row = machine.segments[usize::from(place.segment)];
    let last = row.length.saturating_sub(length);
    let word = match rng.chance(80) {
        true => place.word.min(last),
        false => place.word,
    };
    let tag = rng.chance(95);
    Pointer { tag, word, ..place }
}

/// The words of a list, mostly a good one.
fn list_words(rng: &mut Rng, machine: &Machine) -> Vec<u32> {
    let n = rng.below(9);
    let back = match rng.chance(95) {
        true => records::pointer(rng, machine).to_word() & 0xFFFF,
        false => rng.word(),
    };
    let shown = if rng.chance(95) { n } else { rng.below(12) };
    let mut words = vec![shown, back, rng.word()];
    for _ in 0..n {
        let place = records::pointer(rng, machine);
        let tag = place.tag && rng.chance(10);
        words.push(Pointer { tag, ..place }.to_word());
        words.push(mode(1, rng.pick(&[R, W, R | W])));
    }
    words
}

/// A capability on a list of `length` words: on all of it, on some words or on
/// one, or anywhere. Its source may mostly read there.
fn capability(rng: &mut Rng, machine: &Machine, list: Pointer, length: u32) -> Capability {
    let anywhere = records::capability(rng, machine);
    let (first, last) = match rng.below(9) {
        0 => return anywhere,
        1..=4 => (0, length + rng.below(3)),
        5 => (0, rng.between(1, length - 1)),
        6 => (rng.below(3), length),
        7 => (rng.between(1, length - 1), length),
        _ => {
            let word = rng.below(length);
            (word, word + 1)
        }
    };
    let end = u32::from(SEGMENT_WORDS);
    let word = (u32::from(list.word) + first).min(end - 1);
    let last = (u32::from(list.word) + last).min(end);
    let flags = rng.pick(&[R, R, R, R, R | W, W]);
    Capability {
        segment: list.segment,
        word: word as u16,
        length: last.saturating_sub(word).max(1) as u16,
        read: flags & R != 0,
        write: flags & W != 0,
        source: source(rng, machine, list.segment),
    }
}

/// The executing domain, or another, mostly one that has R on the segment.
fn source(rng: &mut Rng, machine: &Machine, segment: u8) -> u8 {
    let domains = 0..machine.domain_count;
    let rights = |domain: u8| machine.domains[usize::from(domain)].rights;
    let readers: Vec<u8> = domains
        .filter(|&domain| rights(domain)[usize::from(segment)] & R != 0)
        .collect();
    let own = readers.contains(&machine.domain);
    match rng.below(10) {
        0..=2 if own => machine.domain,
        0..=7 if !readers.is_empty() => rng.pick(&readers),
        _ => rng.below(u32::from(machine.domain_count)) as u8,
    }
}
