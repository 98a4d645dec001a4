//! The isolation claim at random, of the reference's stretches.

use compare::isolation::{compare, compare_stretches, Claim, Met, Sees};
use generator::{records, Rng};
use reference::checks::{live_check, static_check, Flag};
use reference::{host, may_see, Machine};

#[test]
fn stretches_depend_on_visible_words_only() {
    let met = compare_stretches(41, 100_000, host::stretch);
    let met = met.unwrap_or_else(|broken| panic!("{broken}"));
    println!("{met}");
    assert!(met.crossed > 15_000, "{met}");
    assert!(met.faulted > 10_000, "{met}");
    assert!(met.halted > 1500, "{met}");
    assert!(met.with_frame > 40_000, "{met}");
    assert!(met.with_hidden > 50_000, "{met}");
    assert!(met.hidden_by_source > 4000, "{met}");
    assert!(met.lists_handed_on > 700, "{met}");
    assert!(met.lists_with_own_source > 300, "{met}");
    assert!(met.lists_in_last_frame > 300, "{met}");
    assert!(met.lists_uncovered > 1500, "{met}");
    assert!(met.lists_failing > 1000, "{met}");
    assert!(met.changed_words > 40_000, "{met}");
    assert!(met.written_unseen > 2000, "{met}");
    assert!(met.instructions > 400_000, "{met}");
}

/// How many of 3,000 stretches break the claim under another visibility.
fn broken_under(sees: Sees) -> u32 {
    let make = host::stretch;
    let mut rng = Rng::new(42, 0);
    let mut met = Met::default();
    let mut broken = 0;
    for _ in 0..3000 {
        let state = records::mid_run(&mut rng);
        let compared = compare(&mut rng, &state, Claim { sees, make }, &mut met);
        broken += u32::from(compared.is_err());
    }
    broken
}

/// Whether the executing domain itself has the flag on an existing word.
fn own(machine: &Machine, segment: u8, word: u16, flag: Flag) -> bool {
    static_check(machine, machine.domain, segment, word, flag).is_ok()
}

/// Whether a word can be read through a capability.
fn live(machine: &Machine, segment: u8, word: u16) -> bool {
    live_check(machine, segment, word, Flag::Read).is_ok()
}

#[test]
fn the_claim_breaks_if_visibility_is_too_small() {
    assert_eq!(broken_under(may_see), 0);
    let without_execute: Sees = |m, s, w| own(m, s, w, Flag::Read) || live(m, s, w);
    let without_read: Sees = |m, s, w| own(m, s, w, Flag::Execute) || live(m, s, w);
    let without_live: Sees = |m, s, w| own(m, s, w, Flag::Execute) || own(m, s, w, Flag::Read);
    for (sees, forgotten) in [
        (without_execute, "execute"),
        (without_read, "read"),
        (without_live, "live check"),
    ] {
        let broken = broken_under(sees);
        assert!(broken > 100, "{broken} without {forgotten}");
    }
}
