//! Registers of a record changed as bytes: some records stay sound, most don't.

use crate::random::Rng;
use reference::bytes::{CAPABILITY_BYTES, RECENT_BYTES, RECENT_ROWS};
use reference::recent::{may_hold, Recent, REGISTERS};
use reference::record::{Capability, Machine};

/// Changes a recency number, a frame or a capability of a sound machine's
/// registers in its bytes.
pub fn spoil_a_register(rng: &mut Rng, machine: &Machine, bytes: &mut [u8]) {
    let k = rng.below(REGISTERS as u32) as usize;
    match rng.below(6) {
        0 => change_recency(rng, k, bytes),
        1 => swap_recency(rng, k, bytes),
        2 => bytes[frame_at(k)] = rng.pick(&[0, 1, 1, 2, 3, 7, 8, 9, 255]),
        3 => change_capability(rng, machine, k, bytes),
        4 => hold_what_may_not_be(rng, machine, k, bytes),
        _ => hold_another(rng, machine, k, bytes),
    }
}

/// Where the frame of a register lies; its recency number comes after it.
fn frame_at(k: usize) -> usize {
    RECENT_ROWS + RECENT_BYTES * k + CAPABILITY_BYTES
}

/// Another number: one that another register has, or one above 15.
fn change_recency(rng: &mut Rng, k: usize, bytes: &mut [u8]) {
    bytes[frame_at(k) + 1] = rng.pick(&[0, 1, 14, 15, 16, 17, 255]);
}

/// The numbers of two registers changed about; the record stays sound.
fn swap_recency(rng: &mut Rng, k: usize, bytes: &mut [u8]) {
    let other = rng.below(REGISTERS as u32) as usize;
    bytes.swap(frame_at(k) + 1, frame_at(other) + 1);
}

/// A byte of a capability changed, mostly of a register that holds one.
fn change_capability(rng: &mut Rng, machine: &Machine, k: usize, bytes: &mut [u8]) {
    let filled = machine.recent.iter().position(|row| row.frame != 0);
    let k = filled.filter(|_| rng.chance(80)).unwrap_or(k);
    let byte = RECENT_ROWS + RECENT_BYTES * k + rng.below(CAPABILITY_BYTES as u32) as usize;
    bytes[byte] = match rng.chance(70) {
        true => bytes[byte].wrapping_add(rng.pick(&[1, 255])),
        false => rng.next() as u8,
    };
}

/// Holds a capability of a frame in use that may not be entered, if there is
/// one.
fn hold_what_may_not_be(rng: &mut Rng, machine: &Machine, k: usize, bytes: &mut [u8]) {
    let mut found = Vec::new();
    for (frame, number) in frames_in_use(machine) {
        let rows = frame.capabilities().iter();
        let not_entered = rows.filter(|row| !may_hold(frame, row));
        found.extend(not_entered.map(|&row| (row, number)));
    }
    if !found.is_empty() {
        let (capability, frame) = rng.pick(&found);
        hold(k, capability, frame, bytes);
    }
}

/// Holds any capability of a frame in use, under that frame's number or another.
fn hold_another(rng: &mut Rng, machine: &Machine, k: usize, bytes: &mut [u8]) {
    let frames: Vec<_> = frames_in_use(machine).collect();
    if frames.is_empty() {
        return;
    }
    let (frame, number) = rng.pick(&frames);
    let capability = rng.pick(frame.capabilities());
    let number = match rng.chance(70) {
        true => number,
        false => rng.between(1, 8) as u8,
    };
    hold(k, capability, number, bytes);
}

/// The frames in use, each with its number.
fn frames_in_use(machine: &Machine) -> impl Iterator<Item = (&reference::record::Frame, u8)> {
    let count = usize::from(machine.frame_count);
    machine.frames[..count].iter().zip(1..)
}

/// Puts a capability and a frame into a register; its recency number stays.
fn hold(k: usize, capability: Capability, frame: u8, bytes: &mut [u8]) {
    let recency = bytes[frame_at(k) + 1];
    let row = Recent {
        capability,
        frame,
        recency,
    };
    let mut machine = Machine::default();
    machine.recent[k] = row;
    let place = RECENT_ROWS + RECENT_BYTES * k;
    let made = reference::record_bytes(&machine);
    bytes[place..place + RECENT_BYTES].copy_from_slice(&made[place..place + RECENT_BYTES]);
}
