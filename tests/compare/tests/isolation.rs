//! Stretches by the proved library keep the isolation claim.

use compare::isolation::{compare, compare_isolation, Claim, Met, Sees};
use compare::library;
use generator::{records, Rng};
use reference::may_see;

#[test]
fn stretches_depend_on_visible_words_only() {
    let met = compare_isolation(7, 8000).unwrap_or_else(|broken| panic!("{broken}"));
    let ended = met.crossed + met.faulted + met.halted + met.spent;
    assert_eq!(met.stretches, ended, "none refused\n{met}");
    assert!(met.crossed > 1000, "{met}");
    assert!(met.faulted > 1000, "{met}");
    assert!(met.halted > 100, "{met}");
    assert!(met.with_frame > 4000, "{met}");
    assert!(met.hidden_by_source > 300, "{met}");
    assert!(met.lists_handed_on > 50, "{met}");
    assert!(met.lists_with_own_source > 20, "{met}");
    assert!(met.lists_in_last_frame > 20, "{met}");
    assert!(met.lists_uncovered > 100, "{met}");
    assert!(met.lists_failing > 50, "{met}");
    assert!(met.written_unseen > 150, "{met}");
}

/// How many of 500 stretches break the claim under a visibility.
fn broken_under(sees: Sees) -> u32 {
    let make = library::stretch;
    let mut rng = Rng::new(42, 0);
    let mut met = Met::default();
    let mut broken = 0;
    for _ in 0..500 {
        let state = records::mid_run(&mut rng);
        let compared = compare(&mut rng, &state, Claim { sees, make }, &mut met);
        broken += u32::from(compared.is_err());
    }
    broken
}

#[test]
fn the_claim_breaks_if_nothing_counts_as_visible() {
    library::linked().unwrap_or_else(|missing| panic!("{missing}"));
    assert_eq!(broken_under(may_see), 0);
    assert!(broken_under(|_, _, _| false) > 300);
}
