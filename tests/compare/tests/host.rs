//! Segments, restarts and images run at once by the proved library and by the
//! reference give the same.

use compare::host::{Call, Comparison};

fn batch(all: &mut Comparison) -> Result<(), String> {
    all.segments(400)?;
    all.restarts(800)?;
    all.entries(800)
}

#[test]
fn the_calls_of_a_host_agree() {
    let mut all = Comparison::new(7).unwrap_or_else(|missing| panic!("{missing}"));
    batch(&mut all).unwrap_or_else(|difference| panic!("{difference}"));
    let tally = &all.tally;
    for (call, numbers) in [
        (Call::Segment, &[0, 7, 8, 9, 21][..]),
        (Call::Restart, &[0, 8, 9]),
        (Call::Entry, &[0, 1, 2, 3, 4, 5, 6, 8, 10]),
    ] {
        for &number in numbers {
            let few = tally.of(call, number) < 30;
            assert!(!few, "few of {call:?} that give {number}\n{tally}");
        }
    }
    for call in [Call::Segment, Call::Restart] {
        let few = tally.dead_gates(call) < 30;
        assert!(!few, "few of {call:?} with a dead gate\n{tally}");
    }
}
