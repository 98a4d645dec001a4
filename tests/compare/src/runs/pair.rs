//! One call by the library and by the reference.

use super::call::Call;
use crate::library;
use crate::state::{Pair, State};
use reference::{host, record_bytes, Machine, MEMORY_WORDS, RECORD_BYTES};

impl Pair {
    /// Reads an image. Gives the number, or what differs.
    pub fn read(&mut self, image: &[u8]) -> Result<u8, String> {
        let State { record, words } = &mut self.library;
        let given = library::read(image, record, words);
        let State { record, words } = &mut self.reference;
        let due = host::read(image, record, words);
        if given == due && self.same() {
            return Ok(due);
        }
        let answers = format!("read: library answers {given}, reference {due}");
        Err(self.difference(&answers))
    }

    /// Makes a call. Gives the code, or what differs.
    pub fn call(&mut self, call: Call) -> Result<u32, String> {
        let State { record, words } = &mut self.library;
        let given = call.by_library(record, words);
        let State { record, words } = &mut self.reference;
        let due = call.by_reference(record, words);
        if given == due && self.same() {
            return Ok(call.code(due));
        }
        let answers = format!("{call:?}: library answers {given:#010x}, reference {due:#010x}");
        Err(self.difference(&answers))
    }
}

/// Makes a call by both on copies of a machine and its memory. Gives the code,
/// or what differs.
pub fn both_call(machine: &Machine, memory: &[u32], call: Call) -> Result<u32, String> {
    library::linked()?;
    Pair::new(&State::new(&record_bytes(machine), memory)).call(call)
}

/// Reads an image by both and runs it if it is accepted. Gives the number of
/// the read, or what differs.
pub fn both_run_image(image: &[u8], limit: u16) -> Result<u8, String> {
    library::linked()?;
    let start = State::new(&[0xEE; RECORD_BYTES], &[0xDEAD_BEEF; MEMORY_WORDS]);
    let mut pair = Pair::new(&start);
    let number = pair.read(image)?;
    if number == 0 {
        pair.call(Call::Run(limit))?;
    }
    Ok(number)
}
