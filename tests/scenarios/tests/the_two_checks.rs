//! The static and the live check, in instructions.

use assembler::*;
use reference::checks::{live_check, static_check, Flag};
use reference::{could_write, may_see, Fault};
use scenarios::*;

#[test]
fn existence_is_judged_before_rights() {
    for rights in [0, 15] {
        let mut bench = world(&[]);
        bench.machine.domains[0].rights[1] = rights;
        for flag in [Flag::Read, Flag::Write, Flag::Execute, Flag::Gate] {
            let check = |segment, word| static_check(&bench.machine, 0, segment, word, flag);
            assert_eq!(check(1, 10), Err(Fault::NoSuchWord));
            assert_eq!(check(5, 0), Err(Fault::NoSuchWord));
            let expected = if rights == 0 {
                Err(Fault::FlagMissing)
            } else {
                Ok(())
            };
            assert_eq!(check(1, 9), expected);
        }
    }
}

#[test]
fn fetch_past_the_end_of_a_segment() {
    let mut bench = world(&[]);
    bench.machine.location.word = WORLD_CODE;
    bench.faults(21);
    bench.machine.location.word = 4096;
    bench.faults(21);
    bench.machine.location.segment = 4;
    bench.machine.domains[0].rights[4] = E;
    bench.faults(21);
    bench.machine.location.word = 4095;
    bench.set(4, 4095, lit(1));
    bench.steps(1);
    assert_eq!(bench.machine.location.word, 4096);
    bench.faults(21);
}

#[test]
fn fetch_needs_execute_and_no_more() {
    for rights in 0..16 {
        let mut bench = world(&[lit(1)]);
        bench.machine.domains[0].rights[0] = rights;
        match rights & E {
            0 => bench.faults(22),
            _ => bench.steps(1),
        }
    }
}

#[test]
fn live_check_of_a_word_that_does_not_exist() {
    let mut bench = world(&[load(3, 0)]);
    bench.machine.pointers[3] = tagged_at(1, 10);
    bench.faults(24);
    bench.push_frame(frame(0, &[capability(1, 9, 1, R, 0)]));
    bench.faults(24);
    bench.push_frame(frame(0, &[capability(1, 9, 2, R, 0)]));
    bench.faults(25);
    let mut bench = world(&[load(3, 0)]);
    bench.machine.pointers[3] = tagged_at(9, 0);
    bench.push_frame(frame(0, &[capability(9, 0, 1, R, 0)]));
    bench.faults(25);
}

#[test]
fn a_capability_with_the_other_flag_is_no_match() {
    let mut bench = world(&[load(3, 0), store(3, 0)]);
    bench.set(3, 5, 44u32);
    bench.machine.pointers[3] = tagged_at(3, 5);
    let write_failing = capability(3, 5, 1, W, 0);
    let read_passing = capability(3, 5, 1, R, 1);
    bench.push_frame(frame(0, &[write_failing, read_passing]));
    bench.steps(1);
    assert_eq!(bench.machine.a, 44);
    bench.faults(25);
    bench.machine.frames[0] = frame(0, &[read_passing]);
    bench.faults(24);
}

#[test]
fn the_first_match_decides() {
    let passing = capability(3, 5, 1, R | W, 1);
    let failing = capability(3, 0, 10, R | W, 0);
    for (order, expected) in [
        ([passing, failing], Ok(())),
        ([failing, passing], Err(Fault::SourceFails)),
    ] {
        let mut bench = world(&[]);
        bench.push_frame(frame(0, &order));
        assert_eq!(live_check(&bench.machine, 3, 5, Flag::Read), expected);
        assert_eq!(live_check(&bench.machine, 3, 5, Flag::Write), expected);
    }
}

#[test]
fn the_source_needs_the_same_flag_at_use() {
    let mut bench = world(&[store(3, 0)]);
    bench.machine.pointers[3] = tagged_at(3, 5);
    bench.push_frame(frame(0, &[capability(3, 5, 1, R | W, 1)]));
    bench.machine.domains[1].rights[3] = R;
    bench.faults(25);
    bench.machine.domains[1].rights[3] = W;
    bench.machine.a = 3;
    bench.steps(1);
    assert_eq!(bench.changed(), [(3, 5, 3)]);
}

#[test]
fn only_the_newest_frame_counts() {
    let mut bench = world(&[]);
    bench.push_frame(frame(0, &[capability(3, 5, 1, R, 1)]));
    assert_eq!(live_check(&bench.machine, 3, 5, Flag::Read), Ok(()));
    bench.push_frame(frame(0, &[capability(3, 6, 1, R, 1)]));
    let now = live_check(&bench.machine, 3, 5, Flag::Read);
    assert_eq!(now, Err(Fault::NoCapability));
}

#[test]
fn the_live_frame_is_used_whoever_executes() {
    let mut bench = world(&[load(3, 0)]);
    bench.set(3, 5, 44u32);
    bench.machine.pointers[3] = tagged_at(3, 5);
    bench.push_frame(frame(1, &[capability(3, 5, 1, R, 1)]));
    assert_eq!(bench.machine.domain, 0, "not the domain it was made for");
    bench.steps(1);
    assert_eq!(bench.machine.a, 44);
}

#[test]
fn tagged_references_do_not_use_the_domains_own_rights() {
    let mut bench = world(&[load(3, 0)]);
    bench.machine.pointers[3] = tagged_at(1, 5);
    bench.faults(24);
    bench.machine.pointers[3] = untagged_at(1, 5);
    bench.steps(1);
}

#[test]
fn capabilities_never_allow_execution() {
    let mut bench = world(&[jump(3, 0)]);
    bench.push_frame(frame(0, &[capability(2, 0, 10, R | W, 1)]));
    bench.machine.pointers[3] = untagged_at(2, 0);
    bench.faults(22);
    bench.machine.pointers[3] = tagged_at(2, 0);
    bench.faults(28);
    bench.machine.location = reference::record::Location {
        segment: 2,
        word: 0,
    };
    bench.faults(22);
}

#[test]
fn what_a_domain_may_see() {
    let mut bench = world(&[]);
    let sees = |bench: &Bench, segment, word| may_see(&bench.machine, segment, word);
    bench.machine.domains[0].rights[0] = E;
    assert!(
        sees(&bench, 0, 0),
        "execute is enough, wherever it executes"
    );
    assert!(!sees(&bench, 0, 10), "no such word");
    assert!(!sees(&bench, 7, 0), "no such segment");
    bench.machine.domains[0].rights[1] = W | G;
    assert!(!sees(&bench, 1, 0), "write or gate isn't enough");
    bench.machine.domains[0].rights[1] = R;
    assert!(sees(&bench, 1, 0));
    assert!(!sees(&bench, 3, 5));
    bench.push_frame(frame(0, &[capability(3, 5, 7, R, 1)]));
    assert!(sees(&bench, 3, 5), "by the live check");
    assert!(!sees(&bench, 3, 4));
    assert!(!sees(&bench, 3, 10), "covered, but no such word");
    bench.machine.frames[0].capabilities[0].source = 0;
    assert!(!sees(&bench, 3, 5), "the source fails");
}

#[test]
fn what_a_domain_could_write() {
    let mut bench = world(&[]);
    let writes = |bench: &Bench, segment, word| could_write(&bench.machine, segment, word);
    assert!(writes(&bench, 1, 9));
    assert!(!writes(&bench, 1, 10));
    assert!(!writes(&bench, 0, 0), "read and execute only");
    assert!(!writes(&bench, 3, 5));
    bench.push_frame(frame(0, &[capability(3, 5, 1, R, 1)]));
    assert!(!writes(&bench, 3, 5), "a read capability");
    bench.machine.frames[0].capabilities[0].write = true;
    assert!(writes(&bench, 3, 5));
    assert!(!writes(&bench, 3, 6));
    bench.machine.domains[1].rights[3] = R;
    assert!(!writes(&bench, 3, 5), "the source fails");
}
