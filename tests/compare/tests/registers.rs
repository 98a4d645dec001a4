//! With and without registers the reference answers the same. No library is
//! needed here.

use compare::registers::{Comparison, Sides};
use compare::runs::Call;
use generator::{records, Reached, Rng};
use reference::recent::fresh;

#[test]
fn with_and_without_registers_all_is_the_same() {
    let mut all = Comparison::new(7);
    let compared = all.records(0..6000).and_then(|()| all.generated(0..6000));
    compared.unwrap_or_else(|difference| panic!("{difference}"));
    let (tally, recents) = (&all.tally, &all.tally.reached.recents);
    assert!(tally.calls >= 15_000, "{tally}");
    assert!(tally.references >= 40_000, "{tally}");
    assert!(tally.missing().is_empty(), "{tally}");
    assert!(recents.rereads >= 1000, "{tally}");
    assert!(recents.older_replaced >= 300, "{tally}");
    assert!(recents.not_entered >= 300, "{tally}");
    assert!(recents.operand_failed() >= 200, "{tally}");
    for (what, count) in recents.named() {
        assert!(count >= 30, "{what}\n{tally}");
    }
    assert_eq!(recents.impossible(), 0, "{tally}");
}

/// Both sides of a machine in the middle of a run.
fn sides() -> Sides {
    Sides::new(&records::mid_run(&mut Rng::new(5, 0)))
}

#[test]
fn a_side_that_differs_is_seen() {
    assert_eq!(sides().same(), Ok(()));
    let changes: [fn(&mut Sides); 6] = [
        |sides| sides.with.machine.a ^= 1,
        |sides| sides.with.machine.pointers[7].tag ^= true,
        |sides| sides.without.machine.location.word ^= 1,
        |sides| sides.without.machine.recent.swap(0, 1),
        |sides| sides.with.machine.recent[0].recency = 16,
        |sides| sides.without.memory[8191] ^= 1,
    ];
    for (index, change) in changes.iter().enumerate() {
        let mut other = sides();
        change(&mut other);
        assert!(other.same().is_err(), "change {index}");
    }
}

#[test]
fn the_registers_themselves_are_not_compared() {
    let mut other = sides();
    other.with.machine.recent = fresh();
    other.with.machine.recent.reverse();
    assert_eq!(other.same(), Ok(()));
    assert!(other.call(Call::Run(30), &mut Reached::default()).is_ok());
}
