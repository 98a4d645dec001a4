//! Restarts of records of all kinds, and of machines in the middle of a run.

use super::{Call, Comparison};
use crate::runs::Call as Executing;
use crate::state::{any_state, Pair, State};
use crate::{hex, library};
use generator::{program, Rng};
use reference::{host, MEMORY_WORDS, RECORD_BYTES};

impl Comparison {
    /// Restarts `count` records of all kinds, and the machines of `count`
    /// images after some instructions.
    pub fn restarts(&mut self, count: u64) -> Result<(), String> {
        for index in 0..count {
            let mut rng = Rng::new(self.seed ^ 11, index);
            let state = any_state(&mut rng);
            let number = restart_any(&state)?;
            self.tally.add_for(Call::Restart, number, &state.record);
            restart_mid_run(&mut rng).map_err(|what| format!("restart {index}: {what}"))?;
            self.tally.add(Call::Restart, 0);
        }
        Ok(())
    }
}

/// Restarts a record of any kind; gives the number.
fn restart_any(state: &State) -> Result<u8, String> {
    let mut pair = Pair::new(state);
    let number = restart(&mut pair)?;
    if number != 0 && pair.reference != *state {
        return Err(format!("changed by a refused restart, {number}"));
    }
    Ok(number)
}

/// Restarts the machine of an image after some instructions: the record is
/// then as it was read, the words are as the instructions left them. Then goes
/// on.
fn restart_mid_run(rng: &mut Rng) -> Result<(), String> {
    let start = State::new(&[0xEE; RECORD_BYTES], &[7; MEMORY_WORDS]);
    let mut pair = Pair::new(&start);
    pair.read(&program(rng).bytes())?;
    let fresh = pair.library.record.clone();
    pair.call(Executing::Run(rng.below(120) as u16))?;
    let words = pair.library.words.clone();
    let number = restart(&mut pair)?;
    if number != 0 || pair.library.record != fresh || pair.library.words != words {
        let read = hex(&fresh);
        return Err(pair.difference(&format!("restart gives {number}\nrecord as read    {read}")));
    }
    pair.call(Executing::Run(rng.below(120) as u16))?;
    Ok(())
}

/// Restarts both; gives the number, or what differs.
fn restart(pair: &mut Pair) -> Result<u8, String> {
    let before = hex(&pair.library.record);
    let given = library::restart(&mut pair.library.record);
    let due = host::restart(&mut pair.reference.record);
    if given == due && pair.same() {
        return Ok(due);
    }
    Err(pair.difference(&format!(
        "restart: library answers {given}, reference {due}\nrecord before     {before}"
    )))
}
