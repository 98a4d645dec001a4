//! The reference with its registers held against the reference without them:
//! each reference, call and return must answer the same. No library is needed.

mod sides;
mod tally;

pub use sides::Sides;
pub use tally::Tally;

use crate::references::Reference;
use crate::runs::{about_to_execute, described, first_limit, further_call, goes_on, Call};
use generator::handed_on::about_to_hand_on;
use generator::recent::about_to_refer;
use generator::records::{self, Snapshot};
use generator::{made, Rng};
use reference::{read_image, Machine, Refusal, MEMORY_WORDS};
use std::ops::Range;

/// Most calls made after the first one on each machine.
const FURTHER_CALLS: usize = 4;
/// One image in so many is also run in single steps.
const STEPPED: u64 = 20;
/// Most single steps in a row.
const STEPS: u32 = 200;
/// References asked of each record.
const REFERENCES: usize = 8;

/// Calls that were compared so far.
pub struct Comparison {
    pub tally: Tally,
    seed: u64,
}

impl Comparison {
    pub fn new(seed: u64) -> Comparison {
        let tally = Tally::default();
        Comparison { tally, seed }
    }

    /// Images of these indexes, run and then called again where they stopped;
    /// some in single steps too.
    pub fn generated(&mut self, indexes: Range<u64>) -> Result<(), String> {
        for index in indexes {
            let mut rng = Rng::new(self.seed ^ 21, index);
            let bytes = made(self.seed, index).bytes;
            let read = fresh(&bytes);
            let number = read.as_ref().map_or_else(|refusal| refusal.number(), |_| 0);
            self.tally.reached.count_read(number);
            let Ok(start) = read else { continue };
            self.image(&mut rng, index, &start)
                .map_err(|what| described("image", index, &bytes, &what))?;
        }
        Ok(())
    }

    fn image(&mut self, rng: &mut Rng, index: u64, start: &Snapshot) -> Result<(), String> {
        let first = Call::Run(first_limit(rng, index));
        self.calls(rng, start, first)?;
        if !index.is_multiple_of(STEPPED) {
            return Ok(());
        }
        let mut sides = Sides::new(start);
        for _ in 0..STEPS {
            if !goes_on(self.tally.call(&mut sides, Call::Step)?) {
                break;
            }
        }
        Ok(())
    }

    /// Records in the middle of a run, other sound ones, and ones about to
    /// execute an instruction that no program had there; references to their
    /// words first.
    pub fn records(&mut self, indexes: Range<u64>) -> Result<(), String> {
        for index in indexes {
            let mut rng = Rng::new(self.seed ^ 22, index);
            let start = any_start(&mut rng);
            let first = rng.pick(&[Call::Step, Call::Run(1), Call::Stretch(40), Call::Run(40)]);
            self.references(&mut rng, &start.machine)
                .and_then(|()| self.calls(&mut rng, &start, first))
                .map_err(|what| format!("record {index}: {what}"))?;
        }
        Ok(())
    }

    /// A call on a start, and further ones up to one that ends it.
    fn calls(&mut self, rng: &mut Rng, start: &Snapshot, first: Call) -> Result<(), String> {
        let mut sides = Sides::new(start);
        let mut code = self.tally.call(&mut sides, first)?;
        for _ in 0..FURTHER_CALLS {
            if !goes_on(code) {
                break;
            }
            code = self.tally.call(&mut sides, further_call(rng))?;
        }
        Ok(())
    }

    /// References by the executing domain, to words near capabilities and
    /// segments.
    fn references(&mut self, rng: &mut Rng, machine: &Machine) -> Result<(), String> {
        let sides = Sides::of(machine);
        for _ in 0..REFERENCES {
            sides.check(Reference::random(rng, machine))?;
            self.tally.references += 1;
        }
        Ok(())
    }
}

/// A machine as an image gives it, or the refusal.
fn fresh(bytes: &[u8]) -> Result<Snapshot, Refusal> {
    let mut machine = Machine::default();
    let mut memory = vec![0; MEMORY_WORDS];
    read_image(bytes, &mut machine, &mut memory)?;
    Ok(Snapshot { machine, memory })
}

/// A sound record of one of the kinds.
fn any_start(rng: &mut Rng) -> Snapshot {
    match rng.below(10) {
        0..=2 => records::mid_run(rng),
        3 | 4 => records::sound(rng),
        5 => about_to_hand_on(rng),
        6 | 7 => about_to_refer(rng),
        _ => about_to_execute(rng),
    }
}

/// Compares all. Calls `progress` after each part.
pub fn compare_registers(
    seed: u64,
    count: u64,
    mut progress: impl FnMut(&str, &Tally),
) -> Result<Tally, String> {
    let mut all = Comparison::new(seed);
    all.records(0..count)?;
    progress("records", &all.tally);
    all.generated(0..count)?;
    progress("generated images", &all.tally);
    Ok(all.tally)
}
