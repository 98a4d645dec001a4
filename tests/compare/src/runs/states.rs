//! Calls on records and memories that no image gave.

use super::call::Call;
use super::instructions::about_to_execute;
use super::{further_call, goes_on, Comparison};
use crate::state::State;
use generator::{lent, Rng};
use reference::{MEMORY_WORDS, RECORD_BYTES};
use std::ops::Range;

/// Lengths of memories that are too short.
const SHORT_MEMORIES: [usize; 5] = [0, 1, 4096, 8190, 8191];

impl Comparison {
    /// Bytes of which most are no sound record: 9, and all stays.
    pub fn garbage(&mut self, count: u64) -> Result<(), String> {
        for index in 0..count {
            let mut rng = Rng::new(self.seed ^ 3, index);
            let mut state = State::from(lent::garbage(&mut rng));
            state.append(&mut rng);
            self.lend(&state);
            for call in [further_call(&mut rng), Call::Step] {
                self.call(call)
                    .map_err(|what| format!("garbage record {index}: {what}"))?;
            }
        }
        Ok(())
    }

    /// Records with each byte changed to each of some values near a border.
    pub fn changed_bytes(&mut self, records: u64) -> Result<(), String> {
        for index in 0..records {
            let mut state = State::from(lent::mid_run(&mut Rng::new(self.seed ^ 7, index)));
            for place in 0..RECORD_BYTES {
                let byte = state.record[place];
                for value in near_borders(byte) {
                    state.record[place] = value;
                    self.lend(&state);
                    self.call(Call::Run(3))
                        .map_err(|what| format!("byte {place} as {value}: {what}"))?;
                }
                state.record[place] = byte;
            }
        }
        Ok(())
    }

    /// Machines about to execute an instruction that no program had there,
    /// with registers that point anywhere.
    pub fn instructions(&mut self, indexes: Range<u64>) -> Result<(), String> {
        for index in indexes {
            let mut rng = Rng::new(self.seed ^ 6, index);
            let state = lent::Lent::from(about_to_execute(&mut rng));
            let first = rng.pick(&[Call::Step, Call::Run(1), Call::Stretch(1)]);
            self.lend(&state.into());
            let second = further_call(&mut rng);
            self.call(first)
                .and_then(|code| match goes_on(code) {
                    true => self.call(second),
                    false => Ok(code),
                })
                .map_err(|what| format!("single instruction {index}: {what}"))?;
        }
        Ok(())
    }

    /// Memories that are too short: 7, or 9 where the record isn't sound.
    pub fn short_memories(&mut self) -> Result<(), String> {
        let mut rng = Rng::new(self.seed ^ 4, 0);
        for words in SHORT_MEMORIES {
            for lent in [lent::sound, lent::garbage].map(|make| make(&mut rng)) {
                self.lend_and_call(&State::new(&lent.bytes, &lent.words[..words]))?;
            }
        }
        Ok(())
    }

    /// Records that are too short: 8, and all stays.
    pub fn short_records(&mut self) -> Result<(), String> {
        let mut rng = Rng::new(self.seed ^ 5, 0);
        for _ in 0..4 {
            let lent = lent::short(&mut rng);
            for words in [MEMORY_WORDS, 8191, 0] {
                self.lend_and_call(&State::new(&lent.bytes, &lent.words[..words]))?;
            }
        }
        Ok(())
    }

    /// Makes each call on a state.
    fn lend_and_call(&mut self, state: &State) -> Result<(), String> {
        for limit in [0, 1, 1000] {
            for call in [Call::Run(limit), Call::Stretch(limit), Call::Step] {
                self.lend(state);
                self.call(call)?;
            }
        }
        Ok(())
    }

    /// Gives both a state.
    fn lend(&mut self, state: &State) {
        self.pair.set(state);
        self.before.clone_from(state);
    }
}

/// Other values of a byte: its neighbours, and numbers at borders of ranges.
fn near_borders(byte: u8) -> Vec<u8> {
    let [less, more] = [byte.wrapping_sub(1), byte.wrapping_add(1)];
    let mut values = vec![0, 1, less, more, 2, 8, 9, 15, 16, 17, 255];
    values.sort_unstable();
    values.dedup();
    values.retain(|&value| value != byte);
    values
}
