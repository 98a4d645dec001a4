//! Machines about to execute an instruction that no program had there: any
//! opcode, with registers that point anywhere.

use generator::handed_on::about_to_hand_on;
use generator::recent::about_to_refer;
use generator::records::{self, executable_place, Snapshot};
use generator::Rng;
use reference::record::{Machine, ACTIVATION_POINTER};
use reference::words::{Opcode, Pointer, OPCODES};

/// A sound machine whose next instruction is a random one, a call that hands a
/// list on, or one that refers to words through tagged pointers.
pub fn about_to_execute(rng: &mut Rng) -> Snapshot {
    match rng.below(10) {
        0 | 1 => return about_to_hand_on(rng),
        2 | 3 => return about_to_refer(rng),
        _ => {}
    }
    let mut snapshot = records::sound(rng);
    let machine = &mut snapshot.machine;
    for register in 0..machine.pointers.len() {
        if rng.chance(60) {
            machine.pointers[register] = existing(rng, machine);
        }
    }
    let opcode = rng.pick(&OPCODES);
    let base = rng.below(8);
    let word = instruction(rng, opcode, base);
    if opcode == Opcode::Ret && rng.chance(70) {
        aim_at_the_caller(rng, machine, base as usize);
    }
    let address = executable_place(rng, machine);
    snapshot.memory[address] = word;
    snapshot
}

/// An instruction word; some have a bit that must be 0.
fn instruction(rng: &mut Rng, opcode: Opcode, base: u32) -> u32 {
    let offset = rng.pick(&[0, 0, 0, 1, 2, 0xFFF, 0x7FF, 0x800]);
    let indirect = u32::from(rng.chance(30));
    let word = (opcode as u32) << 24 | rng.below(8) << 16 | indirect << 15 | base << 12 | offset;
    match rng.chance(97) {
        true => word & !opcode.zero_mask(),
        false => word ^ 1 << rng.below(24),
    }
}

/// Makes a register a pointer to where the live frame returns to, tagged, and
/// s what it recorded, but for its tag.
fn aim_at_the_caller(rng: &mut Rng, machine: &mut Machine, base: usize) {
    let Some(frame) = machine.live_frame().copied() else {
        return;
    };
    machine.pointers[ACTIVATION_POINTER] = Pointer {
        tag: rng.chance(50),
        ..frame.s
    };
    machine.pointers[base] = Pointer {
        tag: rng.chance(90),
        ..frame.return_location
    };
}

/// A pointer to an existing word, or just past its segment.
fn existing(rng: &mut Rng, machine: &Machine) -> Pointer {
    let segment = rng.below(u32::from(machine.segment_count)) as u8;
    let length = machine.segments[usize::from(segment)].length;
    let word = match rng.below(8) {
        0 => length.min(4095),
        1 => length - 1,
        2 | 3 => 0,
        _ => rng.below(u32::from(length)) as u16,
    };
    let tag = rng.chance(40);
    Pointer { tag, segment, word }
}
