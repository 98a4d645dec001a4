//! One write by both implementations.

use crate::state::State;
use crate::{hex, library};
use reference::host::{self, REFUSED};
use reference::LONGEST_IMAGE;
use std::hint::black_box;

/// Longest output that is lent.
pub const LONGEST_OUTPUT: usize = LONGEST_IMAGE + 64;

/// Two outputs, what they hold before a write, and what is written.
#[derive(Clone, Debug)]
pub struct Writing {
    before: Vec<u8>,
    given: Vec<u8>,
    due: Vec<u8>,
    /// The state as it is lent to the library, which leaves it.
    lent: State,
}

impl Writing {
    pub fn new() -> Writing {
        let before: Vec<u8> = (0..LONGEST_OUTPUT).map(|i| (i * 7 + 3) as u8).collect();
        Writing {
            given: before.clone(),
            due: before.clone(),
            before,
            lent: State::default(),
        }
    }

    /// Writes the image of a record and its words to an output of `length`
    /// bytes. Gives the number, or the difference.
    pub fn compare(&mut self, state: &State, length: usize) -> Result<u8, String> {
        let State { record, words } = state;
        let before = &self.before[..length];
        let given = &mut self.given[..length];
        let due = &mut self.due[..length];
        given.copy_from_slice(before);
        due.copy_from_slice(before);
        let lent = &mut self.lent;
        lent.clone_from(state);
        let code = library::write(&lent.record, &lent.words, given);
        let expected = host::write(record, words, due);
        let written = if expected < REFUSED { expected } else { 0 } as usize;
        let past_as_before = given[written..] == before[written..];
        let lent_as_before = *black_box(lent) == *state;
        if code == expected && given == due && past_as_before && lent_as_before {
            return Ok(expected.saturating_sub(REFUSED) as u8);
        }
        Err(format!(
            "write to {length} bytes, {} words: library answers {code:#x}, reference {expected:#x}\n\
             record and words as before: {lent_as_before}\nrecord {}\noutput, library {}\noutput, reference {}",
            words.len(),
            hex(record),
            hex(given),
            hex(due),
        ))
    }

    /// The bytes that the last write left.
    pub fn output(&self, length: usize) -> &[u8] {
        &self.given[..length]
    }
}
