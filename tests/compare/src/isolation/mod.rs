//! The isolation claim at random: a stretch depends on no word that the
//! executing domain may not see, and changes none that it could not write.
//!
//! Whoever makes the stretches is a parameter: the library or the reference.

mod claim;
mod met;

pub use claim::{compare, Broken, Claim, Maker, Sees};
pub use met::Met;

use crate::library;
use generator::handed_on::about_to_hand_on;
use generator::recent::about_to_refer;
use generator::records::{self, Snapshot};
use generator::{program, Rng};
use reference::{may_see, read_image, Machine, MEMORY_WORDS};

/// Most stretches made one after the other.
const IN_A_ROW: u32 = 5;

/// Compares `count` stretches by the library. Says what is broken, or what
/// was met.
pub fn compare_isolation(seed: u64, count: u64) -> Result<Met, String> {
    library::linked()?;
    compare_stretches(seed, count, library::stretch)
}

/// Compares `count` stretches and a few more.
pub fn compare_stretches(seed: u64, count: u64, make: Maker) -> Result<Met, String> {
    let claim = Claim {
        sees: may_see,
        make,
    };
    let mut met = Met::default();
    let mut index = 0;
    while met.stretches < count {
        in_a_row(&mut Rng::new(seed, index), claim, &mut met)
            .map_err(|broken| format!("start {index} of seed {seed}: {broken}"))?;
        index += 1;
    }
    Ok(met)
}

/// Stretches one after the other from a random start, up to a HALT or fault.
fn in_a_row(rng: &mut Rng, claim: Claim, met: &mut Met) -> Result<(), Box<Broken>> {
    let mut state = start(rng);
    for _ in 0..rng.between(1, IN_A_ROW) {
        let ended = met.ended();
        state = compare(rng, &state, claim, met)?;
        if met.ended() > ended {
            break;
        }
    }
    Ok(())
}

/// A fresh machine, one in the middle of a run, one about to hand a list on or to
/// refer to words through tagged pointers, or one with changed fields.
fn start(rng: &mut Rng) -> Snapshot {
    match rng.below(10) {
        0 | 1 => fresh(rng),
        2..=5 => records::mid_run(rng),
        6 => about_to_hand_on(rng),
        7 => about_to_refer(rng),
        _ => records::sound(rng),
    }
}

/// A machine as an image gives it.
fn fresh(rng: &mut Rng) -> Snapshot {
    let mut machine = Machine::default();
    let mut memory = vec![0; MEMORY_WORDS];
    read_image(&program(rng).bytes(), &mut machine, &mut memory).expect("accepted");
    Snapshot { machine, memory }
}
