//! Sound registers that no run need have left, and records about to refer to
//! words through tagged pointers.

use crate::random::Rng;
use crate::records::{self, executable_place, Snapshot};
use assembler::{add, epp, load, spp, store, sub, Code, R, W};
use reference::recent::{may_hold, Recent, Registers, REGISTERS};
use reference::record::{Capability, Machine, CAPABILITIES};
use reference::soundness::register_sound;
use reference::words::Pointer;

/// Empties the registers that a change of the frames left with what they may
/// not hold; their recency numbers stay.
pub fn mend(machine: &mut Machine) {
    let sound = machine.recent.map(|row| register_sound(machine, &row));
    for (row, sound) in machine.recent.iter_mut().zip(sound) {
        if !sound {
            *row = emptied(row);
        }
    }
}

fn emptied(row: &Recent) -> Recent {
    Recent {
        recency: row.recency,
        ..Recent::default()
    }
}

/// Fills registers with what they may hold, mostly of the live frame or mostly of
/// older ones, some with the same; the recency numbers are in any order.
pub fn fill(rng: &mut Rng, machine: &mut Machine) {
    let numbers = any_order(rng);
    let filled = rng.pick(&[20, 60, 100]);
    let of_live = rng.pick(&[70, 70, 10]);
    let mut registers = Registers::default();
    for (row, recency) in registers.iter_mut().zip(numbers) {
        let held = match rng.chance(filled) {
            true => may_be_held(rng, machine, of_live),
            false => None,
        };
        let (capability, frame) = held.unwrap_or_default();
        *row = Recent {
            capability,
            frame,
            recency,
        };
    }
    machine.recent = registers;
}

/// The numbers 0 to 15, in any order.
fn any_order(rng: &mut Rng) -> [u8; REGISTERS] {
    let mut numbers: [u8; REGISTERS] = std::array::from_fn(|k| k as u8);
    for place in (1..REGISTERS).rev() {
        numbers.swap(place, rng.below(place as u32 + 1) as usize);
    }
    numbers
}

/// A capability that a register may hold, with the number of its frame, which is
/// the live one in so many of a hundred times or by chance.
fn may_be_held(rng: &mut Rng, machine: &Machine, of_live: u32) -> Option<(Capability, u8)> {
    let live = machine.frame_count;
    if live == 0 {
        return None;
    }
    let number = match rng.chance(of_live) {
        true => live,
        false => rng.between(1, u32::from(live)) as u8,
    };
    let frame = &machine.frames[usize::from(number) - 1];
    let capability = rng.pick(frame.capabilities());
    may_hold(frame, &capability).then_some((capability, number))
}

/// A sound record about to execute an instruction that refers to words through
/// tagged pointers, mostly near capabilities of the live frame, of which some
/// lie on the same words. Half of the instructions go through an indirect word,
/// which mostly points near a capability too.
pub fn about_to_refer(rng: &mut Rng) -> Snapshot {
    loop {
        let mut snapshot = records::sound(rng);
        let machine = &mut snapshot.machine;
        if machine.frame_count == 0 {
            continue;
        }
        if rng.chance(40) {
            let frames = rng.between(2, 8) as u8;
            records::add_frames(rng, machine, frames);
        }
        if rng.chance(60) {
            crowd(rng, machine);
        }
        let_sources_refer(rng, machine);
        if rng.chance(75) {
            fill(rng, machine);
        }
        mend(machine);
        let base = rng.between(3, 7);
        let first = near_a_capability(rng, machine);
        machine.pointers[base as usize] = first;
        let address = executable_place(rng, machine);
        let code = reference_by(rng, base);
        if rng.chance(50) {
            let link = near_a_capability(rng, machine).to_word();
            put_word(&mut snapshot, first, link);
            snapshot.memory[address] = code.indirect().word();
        } else {
            snapshot.memory[address] = code.word();
        }
        return snapshot;
    }
}

/// Makes the live frame's capabilities lie on few words, with any sources.
fn crowd(rng: &mut Rng, machine: &mut Machine) {
    let place = records::capability(rng, machine);
    let count = rng.between(1, CAPABILITIES as u32) as usize;
    let mut rows = [Capability::default(); CAPABILITIES];
    for row in &mut rows[..count] {
        let other = records::capability(rng, machine);
        let word = (place.word + rng.below(4) as u16).min(4095);
        *row = Capability {
            segment: place.segment,
            word,
            length: rng.between(1, 4).min(4096 - u32::from(word)) as u16,
            ..other
        };
    }
    let live = &mut machine.frames[usize::from(machine.frame_count) - 1];
    live.capability_count = count as u8;
    live.capabilities = rows;
}

/// Mostly gives the sources of the live frame's capabilities R and W where they
/// lie, if that segment exists.
fn let_sources_refer(rng: &mut Rng, machine: &mut Machine) {
    let live = machine.frames[usize::from(machine.frame_count) - 1];
    for row in live.capabilities() {
        if row.segment < machine.segment_count && rng.chance(75) {
            let rights = &mut machine.domains[usize::from(row.source)].rights;
            rights[usize::from(row.segment)] |= R | W;
        }
    }
}

/// A pointer, mostly tagged, to a word of a capability of the live frame, or
/// just past it.
fn near_a_capability(rng: &mut Rng, machine: &Machine) -> Pointer {
    let rows = machine.live_frame().map_or(&[][..], |f| f.capabilities());
    if rows.is_empty() || rng.chance(5) {
        return records::pointer(rng, machine);
    }
    let row = rng.pick(rows);
    let past = u32::from(rng.chance(10));
    let word = row.word + rng.below(u32::from(row.length) + past) as u16;
    Pointer {
        tag: rng.chance(90),
        segment: row.segment,
        word: word.min(4095),
    }
}

/// An instruction that refers to the word at a register's pointer.
fn reference_by(rng: &mut Rng, base: u32) -> Code {
    match rng.below(8) {
        0 => epp(rng.below(8), base, 0),
        1 => spp(rng.below(8), base, 0),
        _ => rng.pick(&[load, load, add, sub, store])(base, 0),
    }
}

/// Puts a word where a pointer says, if that exists.
fn put_word(snapshot: &mut Snapshot, place: Pointer, word: u32) {
    let rows = &snapshot.machine.segments;
    let segment = usize::from(place.segment);
    if place.word >= rows[segment].length {
        return;
    }
    let first: usize = rows[..segment].iter().map(|r| usize::from(r.length)).sum();
    snapshot.memory[first + usize::from(place.word)] = word;
}
