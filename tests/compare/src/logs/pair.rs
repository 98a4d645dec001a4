//! One logged run by the library and by the reference.

use crate::state::{Pair, State};
use crate::{hex, library};
use reference::host;

/// What a logged run is lent beside a state: the log, calls and returns.
#[derive(Clone, Debug, Default, PartialEq, Eq)]
pub struct Output {
    pub log: Vec<u8>,
    pub calls: u16,
    pub returns: u16,
}

impl Output {
    /// Runs the machine of a state by the library; gives the code.
    pub fn by_library(&mut self, State { record, words }: &mut State) -> u32 {
        library::log(
            record,
            words,
            &mut self.log,
            &mut self.calls,
            &mut self.returns,
        )
    }

    /// The same by the reference.
    pub fn by_reference(&mut self, State { record, words }: &mut State) -> u32 {
        host::log(
            record,
            words,
            &mut self.log,
            &mut self.calls,
            &mut self.returns,
        )
    }
}

/// The states and outputs of both.
#[derive(Clone, Debug, Default)]
pub struct LogPair {
    pub states: Pair,
    pub library: Output,
    pub reference: Output,
}

impl LogPair {
    /// Lends both the same output.
    pub fn lend(&mut self, output: &Output) {
        for to in [&mut self.library, &mut self.reference] {
            to.log.clone_from(&output.log);
            (to.calls, to.returns) = (output.calls, output.returns);
        }
    }

    /// Makes a logged run. Gives the code, or what differs.
    pub fn call(&mut self) -> Result<u32, String> {
        let given = self.library.by_library(&mut self.states.library);
        let due = self.reference.by_reference(&mut self.states.reference);
        if given == due && self.states.same() && self.library == self.reference {
            return Ok(due);
        }
        let [library, reference] = [&self.library, &self.reference].map(shown);
        Err(self.states.difference(&format!(
            "log: library answers {given:#010x}, reference {due:#010x}\n\
             library   {library}\nreference {reference}"
        )))
    }
}

/// An output, in one line.
fn shown(output: &Output) -> String {
    let Output {
        log,
        calls,
        returns,
    } = output;
    format!("calls {calls} returns {returns} log {}", hex(log))
}

/// Makes a logged run of a state by both; gives the code and what it left, or
/// what differs.
pub fn both_log(state: &State, output: &Output) -> Result<(u32, State, Output), String> {
    library::linked()?;
    let mut pair = LogPair {
        states: Pair::new(state),
        ..LogPair::default()
    };
    pair.lend(output);
    let code = pair.call()?;
    Ok((code, pair.states.library, pair.library))
}
