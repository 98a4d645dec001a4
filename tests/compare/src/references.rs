//! Random references, asked of the library and of the reference.

use crate::library;
use generator::Rng;
use reference::record::{Capability, CAPABILITIES, FRAMES};
use reference::{host, Machine};

/// A reference by the executing domain, with the bytes that ask for it: 0
/// reads, any other writes; 0 is no tag, any other is one.
#[derive(Clone, Copy, Debug)]
pub struct Reference {
    pub write: u8,
    pub tag: u8,
    pub segment: u8,
    pub word: u16,
}

impl Reference {
    /// A reference that is often near an edge.
    pub fn random(rng: &mut Rng, machine: &Machine) -> Reference {
        let write = byte_with_chance(rng, 40);
        let tag = byte_with_chance(rng, 60);
        let (segment, word) = match rng.below(10) {
            0..=2 => near_segment(rng, machine),
            3..=7 => near_capability(rng, machine),
            8 => {
                let pointer = machine.pointers[rng.below(8) as usize];
                (pointer.segment, pointer.word)
            }
            _ => (rng.next() as u8, rng.next() as u16),
        };
        Reference {
            write,
            tag,
            segment,
            word,
        }
    }

    /// The library's answer.
    pub fn by_library(self, record: &[u8]) -> u32 {
        library::check(record, self.write, self.tag, self.segment, self.word)
    }

    /// The answer that is due.
    pub fn by_reference(self, record: &[u8]) -> u32 {
        host::check(record, self.write, self.tag, self.segment, self.word)
    }
}

/// A byte that is not 0 in so many of a hundred times; mostly 1, then.
fn byte_with_chance(rng: &mut Rng, percent: u32) -> u8 {
    match rng.chance(percent) {
        true => rng.pick(&[1, 1, 1, 2, 128, 255]),
        false => 0,
    }
}

/// A word of a segment or just past it; a few of the segments are absent.
fn near_segment(rng: &mut Rng, machine: &Machine) -> (u8, u16) {
    let segment = rng.below(u32::from(machine.segment_count.clamp(1, 15)) + 1) as u8;
    let length = machine.segments[usize::from(segment)].length;
    (segment, near(rng, 0, length))
}

/// A word of a capability or just outside it.
fn near_capability(rng: &mut Rng, machine: &Machine) -> (u8, u16) {
    let capability = live_capability(rng, machine);
    let word = near(rng, capability.word, capability.length);
    (capability.segment, word)
}

/// A capability of the live frame, if there is one, else of any row.
fn live_capability(rng: &mut Rng, machine: &Machine) -> Capability {
    let frame = match machine.live_frame() {
        Some(frame) if rng.chance(90) => frame,
        _ => &machine.frames[rng.below(FRAMES as u32) as usize],
    };
    let rows = u32::from(frame.capability_count).clamp(1, CAPABILITIES as u32);
    frame.capabilities[rng.below(rows) as usize]
}

/// A word among `length` words from `first` on, mostly one at an edge.
fn near(rng: &mut Rng, first: u16, length: u16) -> u16 {
    let end = first.wrapping_add(length);
    match rng.below(6) {
        0 => first.wrapping_sub(1),
        1 => first,
        2 => end.wrapping_sub(1),
        3 => end,
        _ => first.wrapping_add(rng.below(u32::from(length) + 1) as u16),
    }
}
