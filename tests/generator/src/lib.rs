//! Images and machine records that reach deep behaviour, from a seed.

mod call_loop;
mod call_tree;
mod damage;
mod dead_gates;
mod far_gates;
pub mod handed_on;
pub mod lent;
mod mutate;
mod random;
mod reached;
pub mod recent;
pub mod records;
mod subsystem;
mod templates;
mod trouble;

pub use dead_gates::{DeadGate, DeadGates, DEAD_GATES};
pub use random::Rng;
pub use reached::{Reached, REFUSALS};

use assembler::ImageBuilder;

/// Instructions that the generator's own runs allow.
pub const LIMIT: u16 = 1000;

/// An image as bytes, and what was done to its gates, if that was on purpose.
#[derive(Clone, Debug)]
pub struct Made {
    pub bytes: Vec<u8>,
    pub dead_gate: Option<DeadGate>,
}

impl From<Vec<u8>> for Made {
    fn from(bytes: Vec<u8>) -> Made {
        let dead_gate = None;
        Made { bytes, dead_gate }
    }
}

/// The image of a seed and an index; some are damaged or have changed gates.
pub fn made(seed: u64, index: u64) -> Made {
    let mut rng = Rng::new(seed, index);
    match rng.below(100) {
        0..=8 => damage::damaged(&mut rng),
        9..=13 => dead_gates::build(&mut rng),
        _ => program(&mut rng).bytes().into(),
    }
}

/// The bytes of the same.
pub fn image(seed: u64, index: u64) -> Vec<u8> {
    made(seed, index).bytes
}

/// A damaged image of a seed and an index; the reader refuses most of them.
pub fn made_damaged(seed: u64, index: u64) -> Made {
    damage::damaged(&mut Rng::new(seed, index))
}

/// The bytes of the same.
pub fn damaged_image(seed: u64, index: u64) -> Vec<u8> {
    made_damaged(seed, index).bytes
}

/// An image that the reader accepts.
pub fn program(rng: &mut Rng) -> ImageBuilder {
    let mut image = match rng.below(100) {
        0..=24 => call_tree::build(rng),
        25..=40 => recent::build(rng),
        41..=56 => handed_on::build(rng),
        57..=60 => far_gates::build(rng),
        61..=64 => call_loop::build(rng),
        65..=70 => templates::counting_loop(rng),
        71..=76 => templates::endless_calls(rng),
        77..=81 => templates::relay(rng),
        82..=89 => templates::two_sources(rng),
        90..=96 => templates::edges(rng),
        _ => templates::random_code(rng),
    };
    if rng.chance(14) {
        mutate::mutate(rng, &mut image);
    }
    if rng.chance(3) {
        mutate::start_without_execute(rng, &mut image);
    }
    image
}
