//! One compared stretch: two memories that agree where the domain may see.

use super::met::Met;
use crate::hex;
use generator::records::Snapshot;
use generator::Rng;
use reference::{could_write, machine_from_bytes, record_bytes, Machine};
use std::fmt;

/// Whether a word counts as visible.
pub type Sees = fn(&Machine, u8, u16) -> bool;

/// Makes a stretch of the machine whose record is in the bytes, up to a
/// limit; gives its code.
pub type Maker = fn(&mut [u8], &mut [u32], u16) -> u32;

/// What is claimed of whose stretches.
#[derive(Clone, Copy)]
pub struct Claim {
    pub sees: Sees,
    pub make: Maker,
}

/// An existing word, where it lies in the memory, and whether the executing
/// domain sees it at the start.
pub(super) struct Place {
    pub segment: u8,
    pub word: u16,
    pub address: usize,
    pub seen: bool,
}

/// Every existing word.
fn places(machine: &Machine, sees: Sees) -> Vec<Place> {
    let mut places = Vec::new();
    for segment in 0..machine.segment_count {
        for word in 0..machine.segments[usize::from(segment)].length {
            places.push(Place {
                segment,
                word,
                address: places.len(),
                seen: sees(machine, segment, word),
            });
        }
    }
    places
}

/// One of the two machines: its words at the start, and all at the end.
struct Side {
    start: Vec<u32>,
    end: Vec<u32>,
    bytes: Vec<u8>,
    code: u32,
}

impl Side {
    /// Makes the stretch.
    fn new(make: Maker, record: &[u8], start: Vec<u32>, limit: u16) -> Side {
        let (mut bytes, mut end) = (record.to_vec(), start.clone());
        let code = make(&mut bytes, &mut end, limit);
        Side {
            start,
            end,
            bytes,
            code,
        }
    }

    fn changed(&self, address: usize) -> bool {
        self.start[address] != self.end[address]
    }
}

/// A memory that differs in most words that may not be seen, and past the last
/// segment, and may have another length.
fn differing(rng: &mut Rng, memory: &[u32], places: &[Place]) -> Vec<u32> {
    let mut other = memory.to_vec();
    for place in places.iter().filter(|place| !place.seen) {
        if rng.chance(80) {
            other[place.address] = rng.word();
        }
    }
    for word in &mut other[places.len()..] {
        *word ^= 0x5A5A_5A5A;
    }
    other.extend(vec![9; rng.pick(&[0, 0, 1, 2, 300])]);
    other
}

/// A limit, mostly of a few instructions.
fn limit(rng: &mut Rng) -> u16 {
    match rng.below(40) {
        0 => 0,
        1 | 2 => 1000,
        _ => rng.between(1, 60) as u16,
    }
}

/// Compares one existing word of the two machines; gives whether it changed.
fn compare_word(
    machine: &Machine,
    place: &Place,
    one: &Side,
    two: &Side,
) -> Result<bool, &'static str> {
    let at = place.address;
    let changed = one.changed(at) || two.changed(at);
    let equal = one.end[at] == two.end[at];
    if changed && !equal {
        return Err("a changed word differs");
    }
    if place.seen && !equal {
        return Err("a visible word differs");
    }
    if changed && !could_write(machine, place.segment, place.word) {
        return Err("a word changed that could not be written");
    }
    Ok(changed)
}

/// Compares what is no existing word.
fn compare_rest(one: &Side, two: &Side, existing: usize) -> Result<(), &'static str> {
    if one.code != two.code {
        return Err("ending, number or count differs");
    }
    if one.bytes != two.bytes {
        return Err("the record differs");
    }
    for side in [one, two] {
        if side.start[existing..] != side.end[existing..] {
            return Err("a word past the last segment changed");
        }
    }
    Ok(())
}

/// Compares all of the two machines; gives how many words changed, and how
/// many of those the domain may not see.
fn compare_sides(
    machine: &Machine,
    places: &[Place],
    one: &Side,
    two: &Side,
) -> Result<[u64; 2], String> {
    compare_rest(one, two, places.len())?;
    let (mut changed_words, mut unseen) = (0, 0);
    for place in places {
        let (segment, word) = (place.segment, place.word);
        let changed = compare_word(machine, place, one, two)
            .map_err(|what| format!("{what}: segment {segment}, word {word}"))?;
        changed_words += u64::from(changed);
        unseen += u64::from(changed && !place.seen);
    }
    Ok([changed_words, unseen])
}

/// One compared stretch. Says what is broken, if anything is; else gives a
/// machine as the stretch left it.
pub fn compare(
    rng: &mut Rng,
    start: &Snapshot,
    claim: Claim,
    met: &mut Met,
) -> Result<Snapshot, Box<Broken>> {
    let machine = &start.machine;
    let all = places(machine, claim.sees);
    let other = differing(rng, &start.memory, &all);
    let limit = limit(rng);
    let record = record_bytes(machine);
    let one = Side::new(claim.make, &record, start.memory.clone(), limit);
    let two = Side::new(claim.make, &record, other, limit);
    match compare_sides(machine, &all, &one, &two) {
        Err(what) => Err(Box::new(Broken {
            what,
            record,
            limit,
            sides: [one, two],
        })),
        Ok([changed, unseen]) => {
            met.count(machine, one.code, &all);
            met.changed_words += changed;
            met.written_unseen += unseen;
            let mut end = Snapshot {
                machine: machine_from_bytes(&one.bytes).expect("a record"),
                memory: one.end,
            };
            met.count_list(start, one.code);
            if rng.chance(25) {
                end.memory = two.end;
            }
            Ok(end)
        }
    }
}

/// A broken claim: the call and both machines.
pub struct Broken {
    what: String,
    record: Vec<u8>,
    limit: u16,
    sides: [Side; 2],
}

impl fmt::Display for Broken {
    fn fmt(&self, f: &mut fmt::Formatter<'_>) -> fmt::Result {
        writeln!(f, "{}\nstretch of limit {}", self.what, self.limit)?;
        writeln!(f, "record before {}", hex(&self.record))?;
        for side in &self.sides {
            writeln!(f, "code {:#010x}", side.code)?;
            writeln!(f, "record {}", hex(&side.bytes))?;
            writeln!(f, "words before {}", words_hex(&side.start))?;
            writeln!(f, "words after  {}", words_hex(&side.end))?;
        }
        Ok(())
    }
}

fn words_hex(words: &[u32]) -> String {
    let bytes: Vec<u8> = words.iter().flat_map(|word| word.to_le_bytes()).collect();
    hex(&bytes)
}
