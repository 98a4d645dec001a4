//! What the references of one instruction did with the registers.

use reference::recent::{matches, refer, Recent, Reference, Registers};
use reference::Machine;

/// What one reference that passed did.
pub(super) struct Use {
    /// The lowest register that matched, where the instruction found it filled.
    pub matched: Option<Recent>,
    /// Two or more registers matched.
    pub several: bool,
    /// The match of the full search was entered.
    pub entered: bool,
    /// It may not be entered.
    pub not_entered: bool,
}

/// What the references of an instruction did, made again on the machine that it
/// found, and the registers that they left.
pub(super) fn uses(before: &Machine, made: &[Reference]) -> (Vec<Use>, Registers) {
    let mut registers = before.recent;
    let mut one_use = |&reference| {
        let old = registers;
        let mut matching = matches(&old, before.frame_count, reference);
        let lowest = matching.next();
        let passed = refer(before, &mut registers, reference);
        assert_eq!(passed, Ok(()), "it passed in the instruction");
        Use {
            matched: lowest
                .map(|k| before.recent[k])
                .filter(|row| row.frame == before.frame_count),
            several: matching.next().is_some(),
            entered: lowest.is_none() && registers != old,
            not_entered: lowest.is_none() && registers == old,
        }
    };
    let all = made.iter().map(&mut one_use).collect();
    (all, registers)
}
