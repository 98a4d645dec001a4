//! Where each segment of a record lies.

use super::{Call, Comparison};
use crate::state::{any_state, State};
use crate::{hex, library};
use generator::Rng;
use reference::{host, MEMORY_WORDS};
use std::hint::black_box;

/// Lengths of memories; all but the last are too short.
const MEMORIES: [usize; 6] = [0, 1, 4096, 8190, MEMORY_WORDS - 1, MEMORY_WORDS + 1];
/// Numbers of segments: all that a machine can have, and more.
const NUMBERS: [u8; 21] = [
    0, 1, 2, 3, 4, 5, 6, 7, 8, 9, 10, 11, 12, 13, 14, 15, 16, 17, 100, 128, 255,
];

/// What a call leaves: the number, the first word, and how many there are.
type Found = (u8, u16, u16);

impl Comparison {
    /// Asks `count` records of all kinds for each segment.
    pub fn segments(&mut self, count: u64) -> Result<(), String> {
        for index in 0..count {
            let mut rng = Rng::new(self.seed ^ 10, index);
            let mut state = any_state(&mut rng);
            if rng.chance(25) {
                state.words.resize(rng.pick(&MEMORIES), 5);
            }
            let mut lent = state.clone();
            for segment in NUMBERS {
                let before = (rng.next() as u16, rng.next() as u16);
                let number = same_place(&lent, segment, before)?;
                self.tally.add_for(Call::Segment, number, &state.record);
            }
            if *black_box(&mut lent) != state {
                return Err(format!("record {index} or its words changed"));
            }
        }
        Ok(())
    }
}

/// The number that both give, where they leave the same; a refusal leaves what
/// was there.
fn same_place(state: &State, segment: u8, before: (u16, u16)) -> Result<u8, String> {
    let State { record, words } = state;
    let (mut first, mut count) = before;
    let number = library::segment(record, words, segment, &mut first, &mut count);
    let given: Found = (number, first, count);
    let (mut first, mut count) = before;
    let number = host::segment(record, words, segment, &mut first, &mut count);
    let due: Found = (number, first, count);
    let stayed = (first, count) == before;
    if given == due && (number == 0 || stayed) {
        return Ok(number);
    }
    Err(format!(
        "segment {segment}, {} words, {before:?} before: library gives {given:?}, \
         reference {due:?}\nrecord {}",
        words.len(),
        hex(record)
    ))
}
