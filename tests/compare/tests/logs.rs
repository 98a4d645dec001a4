//! Logged runs by the proved library and by the reference give the same.

use compare::logs::{Comparison, LogPair, Output, Tally};
use compare::runs::{code, Kind};
use compare::{library, Pair, State};
use generator::{lent, Rng};
use reference::LOG_BYTES;

fn batch(all: &mut Comparison) -> Result<(), String> {
    all.records(0..1500)?;
    all.generated(0..1500)?;
    all.damaged(0..1000)
}

#[test]
fn the_logs_agree() {
    let mut all = Comparison::new(7).unwrap_or_else(|missing| panic!("{missing}"));
    batch(&mut all).unwrap_or_else(|difference| panic!("{difference}"));
    let tally = &all.tally;
    assert_eq!(tally.missing(), [""; 0], "{tally}");
    for count in tally.lines {
        assert!(count >= 200, "few logs with some number of lines\n{tally}");
    }
    assert!(tally.longest >= 900, "hundreds of crossings\n{tally}");
    assert!(tally.faulted_after_crossing >= 500, "faults\n{tally}");
    assert!(tally.left_in_frames >= 500, "frames in use\n{tally}");
    let far = [tally.far_crossings, tally.far_calls, tally.high_segments];
    assert!(far.iter().all(|&count| count >= 500), "far\n{tally}");
    for number in (7..=9).chain(21..=32) {
        assert!(tally.of(number) >= 20, "few of {number}\n{tally}");
    }
    let short_records = tally.of(8) - tally.short_logs;
    assert!(short_records >= 200 && tally.short_logs >= 200, "{tally}");
    assert!(tally.dead_gates >= 100, "dead gates\n{tally}");
}

/// A pair of sound machines, with a log that is long enough.
fn sound() -> LogPair {
    library::linked().unwrap_or_else(|missing| panic!("{missing}"));
    let state = State::from(lent::sound(&mut Rng::new(7, 0)));
    let mut pair = LogPair {
        states: Pair::new(&state),
        ..LogPair::default()
    };
    let log = vec![3; LOG_BYTES];
    pair.lend(&Output {
        log,
        calls: 4,
        returns: 5,
    });
    pair
}

#[test]
fn a_difference_is_seen() {
    assert!(sound().call().is_ok());
    for place in [0, 262, 918, 919, 1078] {
        let mut other = sound();
        other.states.library.record[place] ^= 1;
        assert!(other.call().is_err(), "byte {place} of the record");
    }
    let mut other = sound();
    other.states.library.words[8191] ^= 1;
    assert!(other.call().is_err(), "a word");
    let mut other = sound();
    other.library.log[LOG_BYTES - 1] ^= 1;
    assert!(other.call().is_err(), "a byte of the log");
    let mut other = sound();
    other.library.log.push(3);
    assert!(other.call().is_err(), "the length of the log");
}

#[test]
fn totals_that_a_refusal_leaves_are_compared() {
    let mut pair = sound();
    pair.library.log.pop();
    pair.reference.log.pop();
    assert_eq!(pair.call(), Ok(code(Kind::Refused, 8, 0)));
    for totals in [(4, 6), (3, 5)] {
        let mut other = pair.clone();
        (other.library.calls, other.library.returns) = totals;
        assert!(other.call().is_err(), "{totals:?}");
    }
}

#[test]
fn what_was_never_reached_is_named() {
    let missing = Tally::default().missing();
    assert_eq!(missing.len(), 14, "{missing:?}");
    assert!(missing.contains(&"logs with lines: 10 or more".to_string()));
}
