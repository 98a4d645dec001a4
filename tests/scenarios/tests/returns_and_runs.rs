//! Jumps, returns, and how runs and stretches end.

use assembler::*;
use reference::{run, stretch, Ending, Fault, Refusal};
use scenarios::*;

#[test]
fn a_jump_not_taken_checks_only_the_pointers_formation() {
    for (code, a) in [(jz(3, 0), 1), (jm(3, 0), 0x7FFF_FFFF)] {
        for place in [tagged_at(0, 0), untagged_at(9, 0), untagged_at(1, 0)] {
            let mut bench = world(&[code]);
            bench.machine.a = a;
            bench.machine.pointers[3] = place;
            let mut expected = bench.machine.clone();
            expected.location.word = 1;
            bench.steps(1);
            assert_eq!(bench.machine, expected);
        }
        for (place, fault) in [
            (untagged_at(1, 10), 21),
            (untagged_at(3, 0), 22),
            (tagged_at(1, 0), 24),
            (untagged_at(1, 0), 26),
        ] {
            let mut bench = world(&[code.indirect()]);
            bench.machine.a = a;
            bench.machine.pointers[3] = place;
            bench.set(1, 0, 0x0001_0000u32);
            bench.faults(fault);
        }
        let mut bench = world(&[code.indirect()]);
        bench.machine.a = a;
        bench.machine.pointers[3] = tagged_at(3, 0);
        bench.push_frame(frame(0, &[capability(3, 0, 1, R, 0)]));
        bench.faults(25);
    }
}

#[test]
fn a_jump_taken_is_a_jump() {
    for (code, a) in [(jump(3, 0), 7), (jz(3, 0), 0), (jm(3, 0), 0x8000_0000)] {
        for (place, fault) in [
            (tagged_at(0, 5), 28),
            (tagged_at(9, 5), 28),
            (untagged_at(9, 5), 21),
            (untagged_at(0, 10), 21),
            (untagged_at(1, 0), 22),
        ] {
            let mut bench = world(&[code]);
            bench.machine.a = a;
            bench.machine.pointers[3] = place;
            bench.faults(fault);
        }
        let mut bench = world(&[code]);
        bench.machine.a = a;
        bench.machine.pointers[3] = untagged_at(0, 5);
        bench.machine.pointers[2] = tagged_at(8, 8);
        let mut expected = bench.machine.clone();
        expected.location.word = 5;
        bench.steps(1);
        assert_eq!(bench.machine, expected, "b stays");
    }
}

#[test]
fn an_untagged_return_is_a_jump() {
    let mut bench = world(&[ret(3, 0)]);
    bench.machine.pointers[3] = untagged_at(0, 5);
    bench.machine.pointers[2] = tagged_at(8, 8);
    bench.push_frame(frame(1, &[capability(3, 0, 1, R, 0)]));
    let mut expected = bench.machine.clone();
    expected.location.word = 5;
    bench.steps(1);
    assert_eq!(bench.machine, expected, "frame, b and domain stay");
    let mut bench = world(&[ret(3, 0)]);
    bench.machine.pointers[3] = untagged_at(2, 0);
    bench.faults(22);
    bench.machine.pointers[3] = untagged_at(2, 10);
    bench.faults(21);
}

/// Domain 1 about to return to word 7 of segment 0 in domain 0, with s
/// recorded as (5, 6).
fn returning() -> Bench {
    let mut bench = world(&[]);
    bench.set(2, 0, ret(3, 0));
    bench.machine.location.segment = 2;
    bench.machine.domain = 1;
    bench.machine.pointers[3] = tagged_at(0, 7);
    bench.machine.pointers[1] = untagged_at(5, 6);
    let mut made = frame(0, &[capability(4, 0, 3, R, 0)]);
    made.return_location = untagged_at(0, 7);
    made.s = tagged_at(5, 6);
    bench.push_frame(made);
    bench
}

#[test]
fn the_whole_effect_of_a_tagged_return() {
    let mut bench = returning();
    bench.machine.pointers[0] = tagged_at(4, 0);
    bench.machine.pointers[2] = tagged_at(8, 8);
    let mut expected = bench.machine.clone();
    expected.frame_count = 0;
    expected.frames[0] = Default::default();
    expected.pointers[1] = tagged_at(5, 6);
    expected.pointers[2] = untagged_at(1, 0);
    expected.domain = 0;
    expected.location.segment = 0;
    expected.location.word = 7;
    bench.steps(1);
    assert_eq!(bench.machine, expected, "s with its tag, a keeps its own");
}

#[test]
fn the_recorded_s_is_compared_and_restored_with_its_tag() {
    for (recorded, now) in [(false, false), (false, true), (true, false), (true, true)] {
        let mut bench = returning();
        bench.machine.frames[0].s.tag = recorded;
        bench.machine.pointers[1].tag = now;
        bench.steps(1);
        assert_eq!(bench.machine.pointers[1].tag, recorded);
    }
}

#[test]
fn a_tagged_return_to_another_place_or_with_another_s() {
    for place in [tagged_at(0, 8), tagged_at(1, 7), tagged_at(15, 4095)] {
        let mut bench = returning();
        bench.machine.pointers[3] = place;
        bench.faults(32);
    }
    for s in [untagged_at(5, 7), untagged_at(4, 6), tagged_at(4, 6)] {
        let mut bench = returning();
        bench.machine.pointers[1] = s;
        bench.faults(32);
    }
}

#[test]
fn a_tagged_return_with_no_frame() {
    let mut bench = world(&[ret(3, 0)]);
    bench.machine.pointers[3] = tagged_at(0, 0);
    bench.faults(32);
}

#[test]
fn execute_of_the_recorded_domain_comes_after_the_comparisons() {
    let mut bench = returning();
    bench.machine.domains[0].rights[0] = R;
    bench.machine.pointers[1].word = 9;
    bench.faults(32);
    bench.machine.pointers[1].word = 6;
    bench.faults(22);
    for place in [(0, 10), (9, 0)] {
        let mut bench = returning();
        bench.machine.frames[0].return_location = untagged_at(place.0, place.1);
        bench.machine.pointers[3] = tagged_at(place.0, place.1);
        bench.faults(21);
    }
    let mut bench = returning();
    bench.machine.domains[1].rights[0] = 0;
    bench.steps(1);
}

#[test]
fn a_return_frees_the_newest_frame() {
    let mut bench = returning();
    let older = bench.machine.frames[0];
    let mut newer = older;
    newer.domain = 1;
    newer.return_location = untagged_at(2, 0);
    bench.push_frame(newer);
    bench.machine.pointers[3] = tagged_at(2, 0);
    bench.steps(1);
    assert_eq!(bench.machine.frame_count, 1);
    assert_eq!(bench.machine.frames[0], older);
    assert_eq!(bench.machine.frames[1], Default::default());
    assert_eq!(bench.machine.domain, 1);
    assert_eq!(bench.machine.pointers[2], untagged_at(3, 0));
}

#[test]
fn spent_at_the_limit_even_if_the_next_would_fault() {
    let mut bench = world(&[lit(1), Code(0xFF00_0000)]);
    let run = bench.run(1);
    assert_eq!((run.ending, run.count), (Ending::Spent, 1));
    let run = bench.run(0);
    assert_eq!((run.ending, run.count), (Ending::Spent, 0));
    let run = bench.run(1);
    assert_eq!(run.ending, Ending::Faulted(Fault::BadInstruction));
    assert_eq!(run.count, 0);
}

#[test]
fn a_run_that_faults_keeps_what_came_before() {
    let mut bench = world(&[lit(9), store(B, 2), Code(0xFF00_0000)]);
    let run = bench.run(100);
    assert_eq!((run.ending.fault(), run.count), (27, 2));
    assert_eq!(bench.changed(), [(1, 2, 9)]);
    assert_eq!(bench.machine.a, 9);
    assert_eq!(bench.machine.location.word, 2);
}

#[test]
fn a_halted_machine_halts_again() {
    let mut bench = world(&[lit(9), halt()]);
    assert_eq!(bench.run(100).count, 2);
    let before = bench.machine.clone();
    let run = bench.run(100);
    assert_eq!((run.ending, run.count), (Ending::Halted, 1));
    assert_eq!(bench.machine, before);
    let step = reference::step(&mut bench.machine, &mut bench.memory);
    assert_eq!((step.number, step.halted), (0, true));
}

#[test]
fn a_run_of_the_highest_limit() {
    let mut bench = world(&[jump(3, 0)]);
    let run = bench.run(65_535);
    assert_eq!((run.ending, run.count), (Ending::Spent, 65_535));
}

#[test]
fn a_stretch_ends_right_after_its_first_crossing() {
    let code = [epp(A, 4, 0), call(3, 0), halt()];
    let mut bench = world(&code);
    bench.machine.pointers[3] = untagged_at(2, 0);
    bench.machine.pointers[4] = untagged_at(4, 0);
    bench.set(4, 1, pointer(0, 2));
    for limit in [2, 3, 65_535] {
        let mut bench = bench.clone();
        let done = bench.stretch(limit);
        assert_eq!((done.ending, done.count), (Ending::Crossed, 2));
        assert_eq!(bench.machine.domain, 1);
    }
    let mut short = bench.clone();
    let done = short.stretch(1);
    assert_eq!((done.ending, done.count), (Ending::Spent, 1));
    bench.set(4, 0, 9u32);
    let done = bench.stretch(100);
    assert_eq!(done.ending, Ending::Faulted(Fault::BadList));
    assert_eq!(done.count, 1);
}

#[test]
fn a_call_inside_the_domain_is_no_crossing() {
    let mut bench = world(&[call(3, 0), halt()]);
    bench.machine.pointers[3] = untagged_at(0, 1);
    let done = bench.stretch(100);
    assert_eq!((done.ending, done.count), (Ending::Halted, 2));
}

#[test]
fn runs_and_stretches_refuse_nine_before_seven() {
    let mut bench = world(&[halt()]);
    let mut short = vec![5; 8191];
    let machine = &mut bench.machine;
    assert_eq!(run(machine, &mut short, 1), Err(Refusal::ShortMemory));
    assert_eq!(stretch(machine, &mut short, 1), Err(Refusal::ShortMemory));
    assert_eq!(reference::step(machine, &mut short).number, 7);
    machine.domain = 200;
    assert_eq!(run(machine, &mut short, 1), Err(Refusal::NotSound));
    assert_eq!(stretch(machine, &mut short, 1), Err(Refusal::NotSound));
    assert_eq!(reference::step(machine, &mut short).number, 9);
    assert_eq!(short, vec![5; 8191]);
}
