//! Logged runs of the proved library held against the reference's, and against
//! its own runs.

mod laws;
mod pair;
mod tally;

pub use pair::{both_log, LogPair, Output};
pub use tally::Tally;

use crate::runs::{described, no_record, Call};
use crate::state::{any_state, Pair, State};
use crate::{hex, library};
use generator::{damaged_image, image, lent, Rng};
use laws::Held;
use reference::report::PRINTED_LIMIT;
use reference::{LOG_BYTES, MEMORY_WORDS};
use std::ops::Range;

/// Lengths of logs that are too short.
const SHORT: [usize; 7] = [0, 1, 5, 6, 3000, LOG_BYTES - 6, LOG_BYTES - 1];
/// Lengths that are long enough.
const LONG: [usize; 5] = [
    LOG_BYTES,
    LOG_BYTES,
    LOG_BYTES + 1,
    LOG_BYTES + 6,
    LOG_BYTES + 900,
];
/// Lengths of memories; all but the last are too short.
const MEMORIES: [usize; 6] = [0, 1, 4096, 8190, MEMORY_WORDS - 1, MEMORY_WORDS + 1];

/// Logged runs that were compared so far.
pub struct Comparison {
    pub tally: Tally,
    seed: u64,
    pair: LogPair,
    /// State and output before the last call.
    before: State,
    lent: Output,
    /// The state that a run of the same limit is made of.
    ran: State,
    /// Words that memories begin with.
    words: Vec<u32>,
}

impl Comparison {
    /// Begins; fails if the library is missing.
    pub fn new(seed: u64) -> Result<Comparison, String> {
        library::linked()?;
        let mut rng = Rng::new(seed, 0);
        Ok(Comparison {
            tally: Tally::default(),
            seed,
            pair: LogPair::default(),
            before: State::default(),
            lent: Output::default(),
            ran: State::default(),
            words: (0..MEMORY_WORDS).map(|_| rng.next() as u32).collect(),
        })
    }

    /// Images of these indexes, read over bytes of any kind, and logged.
    pub fn generated(&mut self, indexes: Range<u64>) -> Result<(), String> {
        for index in indexes {
            let mut rng = Rng::new(self.seed ^ 13, index);
            let bytes = image(self.seed, index);
            self.before.record = no_record(&mut rng);
            self.before.words.clone_from(&self.words);
            self.image(&mut rng, &bytes)
                .map_err(|what| described("image", index, &bytes, &what))?;
        }
        Ok(())
    }

    /// Damaged images of these indexes, read over a machine in the middle of a
    /// run, which is logged where the read is refused; one in eight of these
    /// machines has a dead gate.
    pub fn damaged(&mut self, indexes: Range<u64>) -> Result<(), String> {
        for index in indexes {
            let mut rng = Rng::new(self.seed ^ 14, index);
            let bytes = damaged_image(self.seed, index);
            self.before = match rng.below(8) {
                0 => lent::dead_gate(&mut rng).into(),
                _ => lent::mid_run(&mut rng).into(),
            };
            self.image(&mut rng, &bytes)
                .map_err(|what| described("damaged image", index, &bytes, &what))?;
        }
        Ok(())
    }

    /// Records of all kinds, with memories and logs of all lengths.
    pub fn records(&mut self, indexes: Range<u64>) -> Result<(), String> {
        for index in indexes {
            let mut rng = Rng::new(self.seed ^ 15, index);
            self.before = any_state(&mut rng);
            if rng.chance(25) {
                self.before.words.resize(rng.pick(&MEMORIES), 5);
            }
            self.pair.states.set(&self.before);
            let short = rng.pick(&SHORT);
            let long = rng.pick(&LONG);
            for length in [short, long] {
                self.log(&mut rng, length)
                    .map_err(|what| format!("record {index}: {what}"))?;
            }
        }
        Ok(())
    }

    /// Reads an image over the state, logs it, and logs it again where it
    /// stopped; now and then it is refused first, for a log that is too short.
    fn image(&mut self, rng: &mut Rng, bytes: &[u8]) -> Result<(), String> {
        self.before.append(rng);
        self.pair.states.set(&self.before);
        self.pair.states.read(bytes)?;
        if rng.chance(10) {
            let length = rng.pick(&SHORT);
            self.log(rng, length)?;
        }
        for _ in 0..2 {
            let length = rng.pick(&LONG);
            self.log(rng, length)?;
        }
        Ok(())
    }

    /// One logged run of the states as they are, with a log of this length.
    fn log(&mut self, rng: &mut Rng, length: usize) -> Result<(), String> {
        self.before.clone_from(&self.pair.states.library);
        self.fill(rng, length);
        self.pair.lend(&self.lent);
        let called = self.pair.call().and_then(|code| {
            self.keeps_the_laws(code)?;
            self.is_the_run(code)?;
            Ok(code)
        });
        let code = called.map_err(|what| format!("{what}\n{}", self.shown_before()))?;
        let Pair { library, .. } = &self.pair.states;
        self.tally.add(code, library, &self.pair.library);
        Ok(())
    }

    /// Fills the output that is lent: with one byte, or with bytes that are all
    /// different from their neighbours.
    fn fill(&mut self, rng: &mut Rng, length: usize) {
        let Output {
            log,
            calls,
            returns,
        } = &mut self.lent;
        let (first, step) = (rng.below(256) as usize, rng.pick(&[0, 1, 37]));
        let bytes = (0..length).map(|place| (first + step * place) as u8);
        log.clear();
        log.extend(bytes);
        (*calls, *returns) = (rng.next() as u16, rng.next() as u16);
    }

    fn keeps_the_laws(&self, code: u32) -> Result<(), String> {
        let before = Held {
            state: &self.before,
            output: &self.lent,
        };
        let after = Held {
            state: &self.pair.states.library,
            output: &self.pair.library,
        };
        laws::keeps(code, before, after)
    }

    /// A log that is long enough changes nothing: code, record and words are
    /// those of a run.
    fn is_the_run(&mut self, code: u32) -> Result<(), String> {
        if self.lent.log.len() < LOG_BYTES {
            return Ok(());
        }
        self.ran.clone_from(&self.before);
        let State { record, words } = &mut self.ran;
        let ran = Call::Run(PRINTED_LIMIT).by_library(record, words);
        if ran == code && self.ran == self.pair.states.library {
            return Ok(());
        }
        Err(format!("log gives {code:#010x}, a run {ran:#010x}"))
    }

    /// The state before the last call, and what was lent.
    fn shown_before(&self) -> String {
        let State { record, words } = &self.before;
        format!(
            "record before the call {}\nwords lent {}, bytes of the log {}",
            hex(record),
            words.len(),
            self.lent.log.len()
        )
    }
}

/// Compares all. Calls `progress` after each part.
pub fn compare_logs(
    seed: u64,
    count: u64,
    mut progress: impl FnMut(&str, &Tally),
) -> Result<Tally, String> {
    let mut all = Comparison::new(seed)?;
    all.records(0..count)?;
    progress("records", &all.tally);
    all.generated(0..count)?;
    progress("generated images", &all.tally);
    all.damaged(0..count)?;
    progress("damaged images", &all.tally);
    Ok(all.tally)
}
