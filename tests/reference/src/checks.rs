//! The two ways to check a reference, and what a domain may see or write.
//!
//! Every function answers for any record: what lies outside the record's
//! counts does not exist and has no rights.

use crate::numbers::Fault;
use crate::record::{Capability, Machine};
use crate::words::{Mode, Pointer};

/// A flag of a rights byte.
#[derive(Clone, Copy, Debug, PartialEq, Eq)]
#[repr(u8)]
pub enum Flag {
    Read = 1,
    Write = 2,
    Execute = 4,
    Gate = 8,
}

/// Whether the machine has that segment and it has that word.
#[inline(always)]
pub fn word_exists(machine: &Machine, segment: u8, word: u16) -> bool {
    segment < machine.segment_count
        && machine
            .segments
            .get(usize::from(segment))
            .is_some_and(|row| word < row.length)
}

/// Whether the domain has the flag on the segment.
#[inline(always)]
pub fn has_flag(machine: &Machine, domain: u8, segment: u8, flag: Flag) -> bool {
    domain < machine.domain_count
        && machine
            .domains
            .get(usize::from(domain))
            .and_then(|row| row.rights.get(usize::from(segment)))
            .is_some_and(|rights| rights & flag as u8 != 0)
}

/// Static check: the word exists (21), then the domain has the flag (22).
#[inline(always)]
pub fn static_check(
    machine: &Machine,
    domain: u8,
    segment: u8,
    word: u16,
    flag: Flag,
) -> Result<(), Fault> {
    if !word_exists(machine, segment, word) {
        return Err(Fault::NoSuchWord);
    }
    if !has_flag(machine, domain, segment, flag) {
        return Err(Fault::FlagMissing);
    }
    Ok(())
}

impl Capability {
    /// Whether the capability has the flag; it never has E or G.
    #[inline(always)]
    pub fn has(&self, flag: Flag) -> bool {
        match flag {
            Flag::Read => self.read,
            Flag::Write => self.write,
            Flag::Execute | Flag::Gate => false,
        }
    }

    /// Whether `length` words from `word` on all lie in the capability.
    #[inline(always)]
    pub fn covers(&self, segment: u8, word: u16, length: u16) -> bool {
        let end = u32::from(word) + u32::from(length);
        let own_end = u32::from(self.word) + u32::from(self.length);
        self.segment == segment && self.word <= word && end <= own_end
    }
}

/// The first capability that has the flag and covers the word.
#[inline(always)]
pub fn first_match(
    capabilities: &[Capability],
    segment: u8,
    word: u16,
    flag: Flag,
) -> Option<&Capability> {
    capabilities
        .iter()
        .find(|capability| capability.has(flag) && capability.covers(segment, word, 1))
}

/// Live check: the first match in the live frame (24 if none), whose source
/// must pass the static check (25 if not).
#[inline(always)]
pub fn live_check(machine: &Machine, segment: u8, word: u16, flag: Flag) -> Result<(), Fault> {
    let found = machine
        .live_frame()
        .and_then(|frame| first_match(frame.capabilities(), segment, word, flag))
        .ok_or(Fault::NoCapability)?;
    static_check(machine, found.source, segment, word, flag).map_err(|_| Fault::SourceFails)
}

/// A reference checked as its tag says: live if tagged, else static for the
/// executing domain.
#[inline(always)]
pub fn check_reference(machine: &Machine, pointer: Pointer, flag: Flag) -> Result<(), Fault> {
    if pointer.tag {
        live_check(machine, pointer.segment, pointer.word, flag)
    } else {
        static_check(machine, machine.domain, pointer.segment, pointer.word, flag)
    }
}

/// The source of a tagged argument or of a list at a tagged a: that of the
/// first capability of the live frame that covers all of it with all flags
/// asked; 24 if there is none. No static check is made.
pub fn pass_on(machine: &Machine, pointer: Pointer, mode: Mode) -> Result<u8, Fault> {
    let fits = |capability: &&Capability| {
        capability.covers(pointer.segment, pointer.word, mode.length)
            && (capability.read || !mode.read)
            && (capability.write || !mode.write)
    };
    machine
        .live_frame()
        .and_then(|frame| frame.capabilities().iter().find(fits))
        .map(|capability| capability.source)
        .ok_or(Fault::NoCapability)
}

/// Whether the executing domain may see a word: it may execute it, or read it
/// by either check.
pub fn may_see(machine: &Machine, segment: u8, word: u16) -> bool {
    let domain = machine.domain;
    static_check(machine, domain, segment, word, Flag::Execute).is_ok()
        || static_check(machine, domain, segment, word, Flag::Read).is_ok()
        || live_check(machine, segment, word, Flag::Read).is_ok()
}

/// Whether the executing domain could write a word: either check passes W.
pub fn could_write(machine: &Machine, segment: u8, word: u16) -> bool {
    static_check(machine, machine.domain, segment, word, Flag::Write).is_ok()
        || live_check(machine, segment, word, Flag::Write).is_ok()
}
