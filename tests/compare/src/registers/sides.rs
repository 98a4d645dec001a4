//! One machine that uses its registers, and one that has none.

use crate::hex;
use crate::references::Reference;
use crate::runs::Call;
use generator::records::Snapshot;
use generator::Reached;
use reference::host::{check, code_of};
use reference::recent::fresh;
use reference::{is_sound, record_bytes, Machine};
use reference::{run_without_registers, stretch_without_registers};

/// Both machines; the registers of the second are empty and stay so.
#[derive(Clone, Debug)]
pub struct Sides {
    pub with: Snapshot,
    pub without: Snapshot,
}

impl Sides {
    pub fn new(start: &Snapshot) -> Sides {
        let mut without = start.clone();
        without.machine.recent = fresh();
        Sides {
            with: start.clone(),
            without,
        }
    }

    /// Machines without words.
    pub fn of(machine: &Machine) -> Sides {
        Sides::new(&Snapshot {
            machine: machine.clone(),
            memory: Vec::new(),
        })
    }

    /// Makes a call by both and counts what the first reached. Gives the code,
    /// or what differs.
    pub fn call(&mut self, call: Call, reached: &mut Reached) -> Result<u32, String> {
        let before = self.with.machine.clone();
        let Snapshot { machine, memory } = &mut self.with;
        let (limit, is_stretch) = (call.limit(), call.is_stretch());
        let with = code_of(reached.observe_run(machine, memory, limit, is_stretch));
        let Snapshot { machine, memory } = &mut self.without;
        let without = code_of(match is_stretch {
            true => stretch_without_registers(machine, memory, limit),
            false => run_without_registers(machine, memory, limit),
        });
        let answers = format!("{call:?}: with registers {with:#010x}, without {without:#010x}");
        let compared = match with == without {
            true => self.same(),
            false => Err("the answers differ".to_string()),
        };
        compared.map_err(|what| {
            let record = hex(&record_bytes(&before));
            format!("{answers}\n{what}\nrecord before the call {record}")
        })?;
        Ok(with)
    }

    /// Asks both a reference; the answer must be the same.
    pub fn check(&self, asked: Reference) -> Result<(), String> {
        let records = [&self.with, &self.without].map(|side| record_bytes(&side.machine));
        let Reference {
            write,
            tag,
            segment,
            word,
        } = asked;
        let [with, without] = records
            .each_ref()
            .map(|record| check(record, write, tag, segment, word));
        if with == without {
            return Ok(());
        }
        Err(format!(
            "{asked:?}: with registers {with:#x}, without {without:#x}\nrecord {}",
            hex(&records[0])
        ))
    }

    /// Whether records, registers aside, and words are the same, the first
    /// record is sound and the second one's registers stayed; else what isn't.
    pub fn same(&self) -> Result<(), String> {
        let mut with = self.with.machine.clone();
        with.recent = fresh();
        for (holds, what) in [
            (
                self.without.machine.recent == fresh(),
                "registers were used",
            ),
            (with == self.without.machine, "the records differ"),
            (self.with.memory == self.without.memory, "the words differ"),
            (is_sound(&self.with.machine), "the record is not sound"),
        ] {
            if !holds {
                return Err(what.to_string());
            }
        }
        Ok(())
    }
}
