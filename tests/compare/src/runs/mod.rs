//! Whole runs of the proved library held against the reference's.

mod call;
mod instructions;
mod pair;
mod states;
mod tally;

pub use call::{code, kind, number, Call, Kind};
pub(crate) use instructions::about_to_execute;
pub use pair::{both_call, both_run_image};
pub use tally::Tally;

use crate::state::{Pair, State};
use crate::{hex, library};
use generator::lent::{self, Lent};
use generator::{made, made_damaged, Rng};
use reference::bytes::put_record;
use reference::host::code_of;
use reference::record::ACTIVATION_POINTER;
use reference::{machine_from_bytes, Machine, MEMORY_WORDS, RECORD_BYTES};
use std::ops::Range;

/// Most words that are lent past the 8,192.
const MORE_WORDS: usize = 100;
/// Most calls made after the first one on each machine.
const FURTHER_CALLS: usize = 4;
/// One image in so many is also run in single steps.
const STEPPED: u64 = 50;
/// Most single steps in a row.
const STEPS: u32 = 200;
/// Records of which each byte is changed.
const CHANGED_RECORDS: u64 = 6;

/// Calls that were compared so far.
pub struct Comparison {
    pub tally: Tally,
    seed: u64,
    pair: Pair,
    /// The state before the last call.
    before: State,
    /// Words that memories begin with.
    words: Vec<u32>,
}

impl Comparison {
    /// Begins; fails if the library is missing.
    pub fn new(seed: u64) -> Result<Comparison, String> {
        library::linked()?;
        let mut rng = Rng::new(seed, 0);
        let words = (0..MEMORY_WORDS + MORE_WORDS).map(|_| rng.next() as u32);
        Ok(Comparison {
            tally: Tally::default(),
            seed,
            pair: Pair::default(),
            before: State::default(),
            words: words.collect(),
        })
    }

    /// Images of these indexes, read over bytes of any kind and run.
    pub fn generated(&mut self, indexes: Range<u64>) -> Result<(), String> {
        for index in indexes {
            let mut rng = Rng::new(self.seed ^ 1, index);
            let image = made(self.seed, index);
            self.tally.reached.dead_gates.add(&image);
            let bytes = image.bytes;
            self.image(&mut rng, index, &bytes, None)
                .map_err(|what| described("image", index, &bytes, &what))?;
        }
        Ok(())
    }

    /// Damaged images of these indexes, read over a machine in the middle of
    /// a run, which goes on where the read is refused; one in eight of these
    /// machines has a dead gate.
    pub fn damaged(&mut self, indexes: Range<u64>) -> Result<(), String> {
        for index in indexes {
            let mut rng = Rng::new(self.seed ^ 2, index);
            let image = made_damaged(self.seed, index);
            self.tally.reached.dead_gates.add(&image);
            let bytes = image.bytes;
            let start = match rng.below(8) {
                0..=3 => lent::mid_run(&mut rng),
                4..=6 => lent::sound(&mut rng),
                _ => lent::dead_gate(&mut rng),
            };
            self.image(&mut rng, index, &bytes, Some(&start))
                .map_err(|what| described("damaged image", index, &bytes, &what))?;
        }
        Ok(())
    }

    /// One image: read, a first run, further calls; some in steps too.
    fn image(
        &mut self,
        rng: &mut Rng,
        index: u64,
        bytes: &[u8],
        start: Option<&Lent>,
    ) -> Result<(), String> {
        self.read(rng, bytes, start)?;
        self.call(Call::Run(first_limit(rng, index)))?;
        self.further_calls(rng)?;
        if index.is_multiple_of(STEPPED) {
            self.read(rng, bytes, start)?;
            self.steps()?;
        }
        Ok(())
    }

    /// Reads an image over a state of both.
    fn read(&mut self, rng: &mut Rng, bytes: &[u8], start: Option<&Lent>) -> Result<(), String> {
        self.begin(rng, start);
        let read = self.pair.read(bytes);
        let number = read.map_err(|what| format!("{what}\n{}", self.state_before()))?;
        if number != 0 && self.pair.reference != self.before {
            return Err(format!("changed by a refused read, {number}"));
        }
        self.tally.add_read(number);
        self.before.clone_from(&self.pair.reference);
        Ok(())
    }

    /// Gives both a state: the one given, else a record that holds nothing.
    /// The words past its segments are random, at times more than 8,192 in all.
    fn begin(&mut self, rng: &mut Rng, start: Option<&Lent>) {
        let length = MEMORY_WORDS + rng.pick(&[0, 0, 0, 1, MORE_WORDS]);
        let State { record, words } = &mut self.before;
        words.clear();
        words.extend_from_slice(&self.words[..length]);
        match start {
            None => *record = no_record(rng),
            Some(start) => {
                record.clone_from(&start.bytes);
                let existing = existing_words(&start.machine);
                words[..existing].copy_from_slice(&start.words[..existing]);
            }
        }
        self.before.append(rng);
        self.pair.set(&self.before);
    }

    /// Calls on a machine that has run before, up to one that ends it.
    fn further_calls(&mut self, rng: &mut Rng) -> Result<(), String> {
        for _ in 0..FURTHER_CALLS {
            if rng.chance(20) {
                self.turn_a_tag(rng);
            }
            let code = self.call(further_call(rng))?;
            if !goes_on(code) {
                break;
            }
        }
        Ok(())
    }

    /// Turns the tag of a register or of a frame's recorded s, in both states;
    /// programs seldom do that between a call and its return.
    fn turn_a_tag(&mut self, rng: &mut Rng) {
        let Ok(mut machine) = machine_from_bytes(&self.before.record) else {
            return;
        };
        let frames = usize::from(machine.frame_count);
        let turned = match rng.below(4) {
            0 => &mut machine.pointers[rng.below(8) as usize],
            1 if frames > 0 => &mut machine.frames[frames - 1].s,
            _ => &mut machine.pointers[ACTIVATION_POINTER],
        };
        turned.tag = !turned.tag;
        put_record(&machine, &mut self.before.record);
        self.pair.set(&self.before);
    }

    /// Single steps in a row, up to a HALT or a fault and one beyond it.
    fn steps(&mut self) -> Result<(), String> {
        for _ in 0..STEPS {
            let code = self.call(Call::Step)?;
            if !goes_on(code) {
                self.call(Call::Step)?;
                break;
            }
        }
        Ok(())
    }

    /// One call. Gives its code.
    fn call(&mut self, call: Call) -> Result<u32, String> {
        let called = self.pair.call(call).and_then(|code| {
            self.left_alone_if_refused(code)?;
            self.watch(call, code)?;
            self.tally.add_call(call, code, &self.before.record);
            Ok(code)
        });
        called.map_err(|what| format!("{what}\n{}", self.state_before()))
    }

    /// A refused call leaves all as it was.
    fn left_alone_if_refused(&self, code: u32) -> Result<(), String> {
        if kind(code) != Some(Kind::Refused) || self.pair.reference == self.before {
            return Ok(());
        }
        Err(format!("changed by a refused call, {code:#010x}"))
    }

    /// Brings the state before the call up to date: a run or stretch is made
    /// once more, instruction by instruction, and what it reached is counted.
    fn watch(&mut self, call: Call, code: u32) -> Result<(), String> {
        let State { record, words } = &mut self.before;
        let reached = &mut self.tally.reached;
        let watched = match call {
            Call::Step => call.code(call.by_reference(record, words)),
            _ => code_of(machine_from_bytes(record).and_then(|mut machine| {
                let (limit, stretch) = (call.limit(), call.is_stretch());
                let run = reached.observe_run(&mut machine, words, limit, stretch)?;
                put_record(&machine, record);
                Ok(run)
            })),
        };
        if watched != code || self.before != self.pair.reference {
            return Err(format!("{call:?} observed gives {watched:#010x}"));
        }
        Ok(())
    }

    /// Record and existing words before the last call.
    fn state_before(&self) -> String {
        let State { record, words } = &self.before;
        let existing = machine_from_bytes(record).map_or(0, |machine| existing_words(&machine));
        let shown = &words[..existing.min(words.len())];
        let bytes: Vec<u8> = shown.iter().flat_map(|word| word.to_le_bytes()).collect();
        format!(
            "record before the call {}\nits words {}\nwords lent {}",
            hex(record),
            hex(&bytes),
            words.len()
        )
    }
}

/// Bytes that an image is read over: zeros, 0xEE, or random ones.
pub(crate) fn no_record(rng: &mut Rng) -> Vec<u8> {
    match rng.below(3) {
        0 => vec![0; RECORD_BYTES],
        1 => vec![0xEE; RECORD_BYTES],
        _ => (0..RECORD_BYTES).map(|_| rng.next() as u8).collect(),
    }
}

/// Whether the next call does more than this one: it wasn't refused, and the
/// machine neither halted nor faulted.
pub(crate) fn goes_on(code: u32) -> bool {
    matches!(kind(code), Some(Kind::Spent | Kind::Crossed))
}

/// The limit of an image's first run.
pub(crate) fn first_limit(rng: &mut Rng, index: u64) -> u16 {
    match index % 64 {
        0 => 65_535,
        1..=3 => 0,
        4..=9 => 1,
        10..=45 => rng.between(2, 60) as u16,
        _ => 1000,
    }
}

/// A call on a machine that has run before: a third are stretches.
pub(crate) fn further_call(rng: &mut Rng) -> Call {
    let limit = match rng.below(12) {
        0 => 0,
        1 | 2 => 1,
        3..=8 => rng.between(2, 60) as u16,
        _ => 1000,
    };
    match rng.below(3) {
        0 => Call::Stretch(limit),
        _ => Call::Run(limit),
    }
}

/// How many words the segments of a machine have in all.
fn existing_words(machine: &Machine) -> usize {
    let rows = machine.segments.iter();
    rows.map(|row| usize::from(row.length)).sum()
}

/// A difference with the image it was found on.
pub(crate) fn described(name: &str, index: u64, bytes: &[u8], what: &str) -> String {
    format!("{name} {index}: {what}\nimage {}", hex(bytes))
}

/// Compares all. Calls `progress` after each part, and after each tenth of
/// the images.
pub fn compare_runs(
    seed: u64,
    count: u64,
    mut progress: impl FnMut(&str, &Tally),
) -> Result<Tally, String> {
    let mut all = Comparison::new(seed)?;
    all.short_memories()?;
    all.short_records()?;
    all.changed_bytes(CHANGED_RECORDS)?;
    all.garbage(count / 10)?;
    progress(
        "records that are not sound, short ones, short memories",
        &all.tally,
    );
    for tenth in 0..10 {
        let indexes = count * tenth / 10..count * (tenth + 1) / 10;
        let part = format!("images and single instructions up to {}", indexes.end);
        all.instructions(indexes.clone())?;
        all.generated(indexes.clone())?;
        all.damaged(indexes)?;
        progress(&part, &all.tally);
    }
    Ok(all.tally)
}
