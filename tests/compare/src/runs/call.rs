//! A call that executes instructions, and the code that it answers.

use crate::library;
use reference::host;

/// A call. Each has a limit; a step's is 1.
#[derive(Clone, Copy, Debug, PartialEq, Eq)]
pub enum Call {
    Run(u16),
    Stretch(u16),
    Step,
}

impl Call {
    pub fn limit(self) -> u16 {
        match self {
            Call::Run(limit) | Call::Stretch(limit) => limit,
            Call::Step => 1,
        }
    }

    pub fn is_stretch(self) -> bool {
        matches!(self, Call::Stretch(_))
    }

    /// Makes the call by the library; gives its answer.
    pub fn by_library(self, record: &mut [u8], words: &mut [u32]) -> u32 {
        match self {
            Call::Run(limit) => library::run(record, words, limit),
            Call::Stretch(limit) => library::stretch(record, words, limit),
            Call::Step => library::step(record, words).into(),
        }
    }

    /// Makes the call by the reference; gives the answer that is due.
    pub fn by_reference(self, record: &mut [u8], words: &mut [u32]) -> u32 {
        match self {
            Call::Run(limit) => host::run(record, words, limit),
            Call::Stretch(limit) => host::stretch(record, words, limit),
            Call::Step => host::step(record, words).into(),
        }
    }

    /// The code of an answer: that of a run or stretch is one.
    pub fn code(self, answer: u32) -> u32 {
        match self {
            Call::Run(_) | Call::Stretch(_) => answer,
            Call::Step => code_of_step(answer),
        }
    }
}

/// The kinds of endings, by their numbers.
#[derive(Clone, Copy, Debug, PartialEq, Eq)]
#[repr(u8)]
pub enum Kind {
    Halted,
    Faulted,
    Spent,
    Crossed,
    Refused,
}

/// All kinds, in order.
pub const KINDS: [Kind; 5] = [
    Kind::Halted,
    Kind::Faulted,
    Kind::Spent,
    Kind::Crossed,
    Kind::Refused,
];

/// A code: kind of ending, number of a fault or refusal, count.
pub fn code(kind: Kind, number: u8, count: u16) -> u32 {
    u32::from(kind as u8) << 24 | u32::from(number) << 16 | u32::from(count)
}

/// The kind of a code, if it has one.
pub fn kind(code: u32) -> Option<Kind> {
    KINDS.get((code >> 24) as usize).copied()
}

/// The number of the fault or refusal in a code.
pub fn number(code: u32) -> u8 {
    (code >> 16) as u8
}

/// The code that a run of limit 1 gives where a step gives this answer.
fn code_of_step(answer: u32) -> u32 {
    match answer {
        0 => code(Kind::Spent, 0, 1),
        0x100 => code(Kind::Halted, 0, 1),
        1..=20 => code(Kind::Refused, answer as u8, 0),
        _ => code(Kind::Faulted, answer as u8, 0),
    }
}
