//! Whole runs by the proved library and by the reference give the same.

use compare::runs::{code, kind, number, Call, Comparison, Kind, Tally};
use compare::{library, Pair, State};
use generator::handed_on::UNCOVERED;
use generator::{lent, Rng, DEAD_GATES, REFUSALS};

/// A fixed batch of a few thousand images and records.
fn batch(all: &mut Comparison) -> Result<(), String> {
    all.short_memories()?;
    all.short_records()?;
    all.changed_bytes(2)?;
    all.garbage(300)?;
    all.instructions(0..3000)?;
    all.generated(0..2000)?;
    all.damaged(0..1000)
}

#[test]
fn the_runs_agree() {
    let mut all = Comparison::new(7).unwrap_or_else(|missing| panic!("{missing}"));
    batch(&mut all).unwrap_or_else(|difference| panic!("{difference}"));
    let (tally, reached) = (&all.tally, &all.tally.reached);
    for (number, count) in (21..).zip(reached.faults) {
        assert!(count >= 20, "few of fault {number}\n{tally}");
    }
    let fetches = reached.fetches_without_execute;
    assert!(fetches >= 100, "few fetches that gave 22\n{tally}");
    for (number, count) in REFUSALS.iter().zip(reached.refusals) {
        assert!(count >= 50, "few of refusal {number}\n{tally}");
    }
    for made in DEAD_GATES {
        let few = reached.dead_gates.of(made) < 10;
        assert!(!few, "few of {made:?}\n{tally}");
    }
    let few = tally.dead_gates.iter().any(|&count| count < 20);
    assert!(!few, "few calls on a record with a dead gate\n{tally}");
    for (n, count) in reached.calls.iter().enumerate() {
        assert!(*count >= 100, "few calls with {n} arguments\n{tally}");
    }
    assert!(reached.frames[8] >= 50, "eight frames\n{tally}");
    assert!(reached.tagged_returns >= 1000, "returns\n{tally}");
    reaches_handed_on_lists(tally);
    reaches_the_registers(tally);
    for kind in [Kind::Halted, Kind::Faulted, Kind::Spent, Kind::Refused] {
        let few = tally.of(kind).iter().any(|&count| count < 50);
        assert!(!few, "few of {kind:?}\n{tally}");
    }
    let [runs, stretches] = tally.of(Kind::Crossed);
    assert!(runs == 0 && stretches >= 200, "crossings\n{tally}");
    for number in [7, 8, 9] {
        let few = tally.refused_with(number) < 40;
        assert!(!few, "few calls refused with {number}\n{tally}");
    }
}

/// Calls with a tagged a must come to each of their ends.
fn reaches_handed_on_lists(tally: &Tally) {
    let handed_on = &tally.reached.handed_on;
    for why in UNCOVERED {
        assert!(handed_on.of(why) >= 5, "few of {why:?}\n{tally}");
    }
    let [refused, failing] = [handed_on.cover_refused(), handed_on.failing_word];
    assert!(refused >= 100, "few lists not covered\n{tally}");
    assert!(failing >= 50, "few lists with a failing word\n{tally}");
    assert!(handed_on.two_sources >= 50, "two sources\n{tally}");
    assert!(handed_on.own_source >= 20, "own source\n{tally}");
    assert!(handed_on.last_frame >= 20, "the last frame\n{tally}");
}

/// The registers must be used in each way.
fn reaches_the_registers(tally: &Tally) {
    let recents = &tally.reached.recents;
    assert!(recents.rereads >= 300, "registers' matches\n{tally}");
    assert!(recents.older_replaced >= 50, "replaced\n{tally}");
    assert!(recents.not_entered >= 50, "not entered\n{tally}");
    assert!(recents.operand_failed() >= 50, "operands failed\n{tally}");
    assert!(recents.cleared >= 300, "cleared\n{tally}");
    for (what, count) in recents.named() {
        assert!(count >= 10, "{what}\n{tally}");
    }
}

#[test]
fn a_state_that_differs_is_seen() {
    library::linked().unwrap_or_else(|missing| panic!("{missing}"));
    let mut state = State::from(lent::sound(&mut Rng::new(7, 0)));
    state.record.extend([1, 2]);
    let mut pair = Pair::new(&state);
    assert_eq!(pair.call(Call::Run(0)), Ok(code(Kind::Spent, 0, 0)));
    for place in [0, 262, 918, 919, 1000, 1077, 1078, 1079, 1080] {
        let mut other = pair.clone();
        other.library.record[place] ^= 1;
        assert!(other.call(Call::Run(0)).is_err(), "byte {place}");
    }
    for place in [0, 4095, 8191] {
        let mut other = pair.clone();
        other.library.words[place] ^= 1;
        assert!(other.call(Call::Run(0)).is_err(), "word {place}");
    }
}

#[test]
fn answers_of_a_step_have_codes() {
    assert_eq!(Call::Step.code(0), code(Kind::Spent, 0, 1));
    assert_eq!(Call::Step.code(0x100), code(Kind::Halted, 0, 1));
    assert_eq!(Call::Step.code(9), code(Kind::Refused, 9, 0));
    assert_eq!(Call::Step.code(21), code(Kind::Faulted, 21, 0));
}

#[test]
fn codes_hold_kind_number_and_count() {
    assert_eq!(code(Kind::Refused, 8, 0), 0x0408_0000);
    assert_eq!(code(Kind::Faulted, 32, 65_535), 0x0120_FFFF);
    assert_eq!(kind(0x0120_FFFF), Some(Kind::Faulted));
    assert_eq!(number(0x0120_FFFF), 32);
    assert_eq!(kind(0x0500_0000), None);
}
