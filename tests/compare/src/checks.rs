//! The proved checks held against the reference implementation's.

use crate::answers::{Answers, Kind};
use crate::references::Reference;
use crate::{hex, library};
use generator::lent::{self, Lent};
use generator::Rng;
use std::hint::black_box;

/// References asked of each record.
const REFERENCES: u64 = 8;

/// Asks `count` references of random records. Gives the answers that both
/// implementations agreed on, or says what they differ in.
pub fn compare_checks(seed: u64, count: u64) -> Result<Answers, String> {
    library::linked()?;
    let mut answers = Answers::default();
    let mut index = 0;
    while answers.total() < count {
        let mut rng = Rng::new(seed, index);
        let (kind, Lent { machine, bytes, .. }) = record(&mut rng);
        for _ in 0..REFERENCES.min(count - answers.total()) {
            let asked = Reference::random(&mut rng, &machine);
            answers.add(kind, same_answer(&bytes, asked)?);
        }
        index += 1;
    }
    Ok(answers)
}

/// A record of one of the kinds; some have bytes after it.
fn record(rng: &mut Rng) -> (Kind, Lent) {
    let (kind, mut lent) = match rng.below(20) {
        0..=7 => (Kind::MidRun, lent::mid_run(rng)),
        8..=15 => (Kind::Sound, lent::sound(rng)),
        16..=18 => no_sound(rng),
        _ => return (Kind::Short, lent::short(rng)),
    };
    lent.bytes.extend(vec![0xEE; rng.pick(&[0, 0, 0, 1, 40])]);
    (kind, lent)
}

/// A record with garbage; some are sound but for a dead gate.
fn no_sound(rng: &mut Rng) -> (Kind, Lent) {
    let lent = lent::garbage(rng);
    match lent::is_dead_gate_alone(&lent.bytes) {
        true => (Kind::DeadGate, lent),
        false => (Kind::Garbage, lent),
    }
}

/// The answer of both implementations; the record stays.
fn same_answer(bytes: &[u8], asked: Reference) -> Result<u32, String> {
    let mut lent = bytes.to_vec();
    let due = asked.by_reference(bytes);
    let given = asked.by_library(&lent);
    if given == due && *black_box(&mut lent) == bytes {
        return Ok(given);
    }
    Err(format!(
        "{asked:?}\nreference answers {due:#x}, library {given:#x}\nrecord {}",
        hex(bytes)
    ))
}
