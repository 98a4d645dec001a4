//! What tests of the registers share.

use crate::{tagged_at, world, Bench};
use assembler::load;
use reference::recent::{Recent, REGISTERS};
use reference::record::{Capability, Frame};

/// The recency numbers, register 0 first.
pub fn numbers(bench: &Bench) -> [u8; REGISTERS] {
    bench.machine.recent.map(|row| row.recency)
}

/// What the filled registers hold, the newest first, each with its frame.
pub fn held(bench: &Bench) -> Vec<(Capability, u8)> {
    let mut rows: Vec<Recent> = bench.machine.recent.to_vec();
    rows.retain(|row| row.frame != 0);
    rows.sort_by_key(|row| std::cmp::Reverse(row.recency));
    rows.iter().map(|row| (row.capability, row.frame)).collect()
}

/// Lets a register hold a capability of a frame; its recency number stays.
pub fn hold(bench: &mut Bench, k: usize, capability: Capability, frame: u8) {
    let row = &mut bench.machine.recent[k];
    (row.capability, row.frame) = (capability, frame);
}

/// A world whose first instruction loads the word at register 3, with this live
/// frame.
pub fn reading(frame: Frame) -> Bench {
    let mut bench = world(&[load(3, 0)]);
    bench.push_frame(frame);
    bench
}

/// Lets register 3 point to a word through a tagged pointer, and the first
/// instruction be the next one.
pub fn aim(bench: &mut Bench, segment: u8, word: u16) {
    bench.machine.pointers[3] = tagged_at(segment, word);
    bench.machine.location.segment = 0;
    bench.machine.location.word = 0;
}

/// Loads a word through a tagged pointer; that must pass.
pub fn read(bench: &mut Bench, segment: u8, word: u16) {
    aim(bench, segment, word);
    bench.steps(1);
}
