//! The sixteen registers that keep recent capabilities.
//!
//! A reference looks for a match in the registers of the live frame before it
//! searches the frame, and renews the registers at once if it passes. So an
//! instruction works on a copy of them, which it keeps if it is completed.

use crate::checks::{first_match, static_check, Flag};
use crate::numbers::Fault;
use crate::record::{Capability, Frame, Machine};
use crate::words::Pointer;

/// How many registers there are.
pub const REGISTERS: usize = 16;
/// The recency number of the register used last.
pub const NEWEST: u8 = 15;

/// A register: a capability, the number of frames in use at which its frame is
/// the live one (0 in an empty register), and a recency number.
#[derive(Clone, Copy, Debug, Default, PartialEq, Eq)]
pub struct Recent {
    pub capability: Capability,
    pub frame: u8,
    pub recency: u8,
}

/// All registers.
pub type Registers = [Recent; REGISTERS];

/// The registers of a fresh machine: empty, register k with recency k.
pub fn fresh() -> Registers {
    std::array::from_fn(|k| Recent {
        recency: k as u8,
        ..Recent::default()
    })
}

/// A reference through a tagged pointer.
#[derive(Clone, Copy, Debug, PartialEq, Eq)]
pub struct Reference {
    pub segment: u8,
    pub word: u16,
    pub flag: Flag,
}

impl Reference {
    pub fn new(pointer: Pointer, flag: Flag) -> Reference {
        Reference {
            segment: pointer.segment,
            word: pointer.word,
            flag,
        }
    }
}

/// The registers that match, the lowest first: each holds a capability of the
/// live frame that has the flag and covers the word.
pub fn matches(
    registers: &Registers,
    live: u8,
    made: Reference,
) -> impl Iterator<Item = usize> + '_ {
    (0..REGISTERS).filter(move |&k| {
        let Recent {
            capability, frame, ..
        } = &registers[k];
        live > 0
            && *frame == live
            && capability.has(made.flag)
            && capability.covers(made.segment, made.word, 1)
    })
}

/// Makes a reference. The lowest register that matches decides and rises; if
/// none does, the first match of the live frame decides (24 if there is none)
/// and is entered if it may be. A fault leaves the registers.
pub fn refer(machine: &Machine, registers: &mut Registers, made: Reference) -> Result<(), Fault> {
    let live = machine.frame_count;
    let lowest = matches(registers, live, made).next();
    if let Some(k) = lowest {
        source_passes(machine, &registers[k].capability, made)?;
        rise(registers, k);
        return Ok(());
    }
    let frame = machine.live_frame().ok_or(Fault::NoCapability)?;
    let found = first_match(frame.capabilities(), made.segment, made.word, made.flag)
        .ok_or(Fault::NoCapability)?;
    source_passes(machine, found, made)?;
    if may_hold(frame, found) {
        enter(registers, *found, live);
    }
    Ok(())
}

/// The source of a match must pass the static check: 25 if not.
fn source_passes(machine: &Machine, found: &Capability, made: Reference) -> Result<(), Fault> {
    static_check(machine, found.source, made.segment, made.word, made.flag)
        .map_err(|_| Fault::SourceFails)
}

/// Whether a capability may be entered that comes after these in its frame:
/// none of another source shares a word with it.
pub fn may_enter(capability: &Capability, earlier: &[Capability]) -> bool {
    let in_the_way =
        |row: &Capability| row.source != capability.source && shares_a_word(row, capability);
    !earlier.iter().any(in_the_way)
}

/// Whether two capabilities have a word in common; flags don't count.
fn shares_a_word(one: &Capability, two: &Capability) -> bool {
    let end = |row: &Capability| u32::from(row.word) + u32::from(row.length);
    one.segment == two.segment && u32::from(one.word) < end(two) && u32::from(two.word) < end(one)
}

/// Whether a frame has the capability, and it may be entered where the frame
/// has it first.
pub fn may_hold(frame: &Frame, capability: &Capability) -> bool {
    let rows = frame.capabilities();
    let first = rows.iter().position(|row| row == capability);
    first.is_some_and(|place| may_enter(capability, &rows[..place]))
}

/// A register gets 15; every number above its old one falls by one.
fn rise(registers: &mut Registers, k: usize) {
    let old = registers[k].recency;
    for row in registers.iter_mut().filter(|row| row.recency > old) {
        row.recency -= 1;
    }
    registers[k].recency = NEWEST;
}

/// A new entry takes the register at 0, gets 15, and all others fall by one.
fn enter(registers: &mut Registers, capability: Capability, frame: u8) {
    let replaced = registers.iter().position(|row| row.recency == 0);
    if let Some(k) = replaced {
        (registers[k].capability, registers[k].frame) = (capability, frame);
        rise(registers, k);
    }
}

/// Enters the list capability, the last one of the live frame that a call has
/// just made, if it may be entered there.
pub fn enter_list(machine: &Machine, registers: &mut Registers) {
    let rows = machine.live_frame().map(Frame::capabilities);
    let Some((list, earlier)) = rows.and_then(<[Capability]>::split_last) else {
        return;
    };
    if may_enter(list, earlier) {
        enter(registers, *list, machine.frame_count);
    }
}

/// Empties a frame's registers, which get the lowest numbers in their old
/// order; all others follow in theirs.
pub fn clear(registers: &mut Registers, frame: u8) {
    let mut order: [usize; REGISTERS] = std::array::from_fn(|k| k);
    order.sort_by_key(|&k| (registers[k].frame != frame, registers[k].recency));
    for (recency, k) in (0..).zip(order) {
        if registers[k].frame == frame {
            registers[k] = Recent::default();
        }
        registers[k].recency = recency;
    }
}

#[cfg(test)]
mod tests {
    use super::*;

    fn numbers(registers: &Registers) -> [u8; REGISTERS] {
        registers.map(|row| row.recency)
    }

    #[test]
    fn a_match_rises_and_those_above_it_fall() {
        let mut registers = fresh();
        rise(&mut registers, 13);
        let due = [0, 1, 2, 3, 4, 5, 6, 7, 8, 9, 10, 11, 12, 15, 13, 14];
        assert_eq!(numbers(&registers), due);
        rise(&mut registers, 13);
        assert_eq!(numbers(&registers), due, "the newest stays");
    }

    #[test]
    fn an_entry_takes_the_register_at_0() {
        let mut registers = fresh();
        let capability = Capability {
            length: 1,
            ..Capability::default()
        };
        enter(&mut registers, capability, 3);
        enter(&mut registers, capability, 4);
        let due = [14, 15, 0, 1, 2, 3, 4, 5, 6, 7, 8, 9, 10, 11, 12, 13];
        assert_eq!(numbers(&registers), due);
        assert_eq!([registers[0].frame, registers[1].frame], [3, 4]);
        assert_eq!(registers[1].capability, capability);
    }

    #[test]
    fn cleared_registers_come_before_all_others() {
        let mut registers = fresh();
        for k in [9, 4, 15] {
            registers[k].frame = 2;
        }
        registers[7].frame = 1;
        clear(&mut registers, 2);
        let due = [3, 4, 5, 6, 0, 7, 8, 9, 10, 1, 11, 12, 13, 14, 15, 2];
        assert_eq!(numbers(&registers), due);
        assert_eq!(registers.map(|row| row.frame)[7], 1);
        assert_eq!(registers.iter().map(|row| row.frame).sum::<u8>(), 1);
    }

    #[test]
    fn words_are_shared_within_a_segment_alone() {
        let row = |segment, word, length| Capability {
            segment,
            word,
            length,
            ..Capability::default()
        };
        let shares = |one, two| shares_a_word(&one, &two) && shares_a_word(&two, &one);
        assert!(shares(row(1, 4, 4), row(1, 7, 1)));
        assert!(shares(row(1, 4, 4), row(1, 0, 5)));
        assert!(shares(row(1, 0, 4096), row(1, 4095, 1)));
        assert!(!shares(row(1, 4, 4), row(1, 8, 1)));
        assert!(!shares(row(1, 4, 4), row(1, 3, 1)));
        assert!(!shares(row(1, 4, 4), row(2, 4, 4)));
    }
}
