//! CALL: its order of checks, the argument list and the frame made.

use assembler::*;
use reference::words::Pointer;
use scenarios::*;

/// A world about to call gate 0 of segment 2, with the list in segment 4 at
/// word `at`. Words of the list past 4,095 are left out.
fn calling(at: u16, list: &[u32]) -> Bench {
    let mut bench = world(&[call(3, 0)]);
    bench.machine.pointers[3] = untagged_at(2, 0);
    bench.machine.pointers[0] = untagged_at(4, at);
    for (place, &word) in (at..4096).zip(list) {
        bench.set(4, place, word);
    }
    bench
}

/// A list that returns to word 1 of segment 0.
fn list() -> ArgumentList {
    ArgumentList::new(pointer(0, 1))
}

#[test]
fn order_of_the_checks_before_the_list() {
    let mut bench = calling(0, &[9]);
    for _ in 0..8 {
        bench.push_frame(frame(0, &[capability(4, 0, 1, R, 0)]));
    }
    bench.machine.pointers[3] = tagged_at(7, 10);
    bench.machine.domains[0].rights[2] = 0;
    bench.faults(28);
    bench.machine.pointers[3] = untagged_at(7, 10);
    bench.faults(21);
    bench.machine.pointers[3] = untagged_at(2, 10);
    bench.faults(21);
    bench.machine.pointers[3] = untagged_at(2, 9);
    bench.faults(22);
    bench.machine.domains[0].rights[2] = R | W;
    bench.faults(22);
    bench.machine.domains[0].rights[2] = G;
    bench.faults(29);
    bench.machine.pointers[3] = untagged_at(2, 2);
    bench.faults(29);
    bench.machine.pointers[3] = untagged_at(2, 1);
    bench.faults(31);
    bench.machine.frame_count = 7;
    bench.machine.frames[7] = Default::default();
    bench.faults(30);
    bench.set(4, 0, 0u32);
    bench.steps(1);
}

#[test]
fn the_whole_effect_of_a_crossing_call() {
    let words = list()
        .argument(pointer(4, 100), 7, R)
        .argument(pointer(9, 4095), 1, W)
        .words();
    let mut bench = calling(50, &words);
    bench.machine.pointers[3] = untagged_at(2, 1);
    bench.machine.pointers[1] = tagged_at(5, 6);
    bench.machine.a = 17;
    let mut expected = bench.machine.clone();
    expected.frame_count = 1;
    expected.frames[0] = frame(
        0,
        &[
            capability(4, 100, 7, R, 0),
            capability(9, 4095, 1, W, 0),
            capability(4, 50, 7, R, 0),
        ],
    );
    expected.frames[0].return_location = untagged_at(0, 1);
    expected.frames[0].s = tagged_at(5, 6);
    expected.pointers[0] = tagged_at(4, 50);
    expected.pointers[2] = untagged_at(3, 0);
    expected.domain = 1;
    expected.location.segment = 2;
    expected.location.word = 1;
    let list = expected.frames[0].capabilities[2];
    (expected.recent[0].capability, expected.recent[0].frame) = (list, 1);
    for (row, recency) in expected.recent.iter_mut().zip([15].into_iter().chain(0..)) {
        row.recency = recency;
    }
    bench.steps(1);
    assert_eq!(bench.machine, expected);
    assert_eq!(bench.changed(), []);
}

#[test]
fn execute_makes_it_a_call_inside_the_domain() {
    let mut bench = calling(0, &[9]);
    bench.machine.domains[0].rights[2] = E | G;
    bench.machine.pointers[2] = tagged_at(7, 7);
    bench.machine.pointers[0] = untagged_at(15, 15);
    let mut expected = bench.machine.clone();
    expected.pointers[2] = untagged_at(1, 0);
    expected.location.segment = 2;
    expected.location.word = 0;
    bench.steps(1);
    assert_eq!(bench.machine, expected, "no frame, the list isn't read");
    let mut bench = calling(0, &[9]);
    bench.machine.domains[0].rights[2] = E;
    bench.machine.pointers[3] = untagged_at(2, 9);
    for _ in 0..8 {
        bench.push_frame(frame(0, &[capability(4, 0, 1, R, 0)]));
    }
    bench.steps(1);
    assert_eq!(bench.machine.location.word, 9, "no gate needed");
}

#[test]
fn gate_into_a_domain_that_cannot_execute_there() {
    let mut bench = calling(0, &list().words());
    for rights in [0, R, W, G, R | W | G] {
        bench.machine.domains[1].rights[2] = rights;
        bench.faults(9);
    }
    bench.machine.domains[1].rights[2] = E;
    bench.steps(1);
    assert_eq!(bench.machine.domain, 1);
    bench.steps(1);
}

#[test]
fn gate_into_the_calling_domain_itself() {
    let mut bench = calling(0, &list().words());
    bench.machine.segments[2].gate_domain = 0;
    bench.faults(9);
    bench.machine.domains[0].rights[2] = E | G;
    bench.steps(1);
    assert_eq!(bench.machine.domain, 0);
    assert_eq!(bench.machine.frame_count, 0, "with E the call stays inside");
    assert_eq!(bench.machine.pointers[0], untagged_at(4, 0));
    assert_eq!(bench.machine.pointers[2], untagged_at(1, 0));
}

#[test]
fn each_list_word_is_judged_before_the_next_is_read() {
    calling(4095, &[9]).faults(30);
    calling(4095, &[8]).faults(23);
    calling(4094, &[9, 0x0001_0000]).faults(30);
    calling(4094, &[0, 0x0001_0000]).faults(26);
    calling(4094, &[0, tagged(0, 1)]).faults(30);
    calling(4094, &[0, pointer(0, 1)]).faults(23);
    calling(4093, &[0, pointer(0, 1)]).steps(1);
    calling(4093, &[1, pointer(0, 1)]).faults(23);
    calling(4092, &[1, pointer(0, 1), 0, 0x0001_0000]).faults(26);
    calling(4092, &[1, pointer(0, 1), 0, pointer(4, 0)]).faults(23);
    calling(4091, &[1, pointer(0, 1), 0, pointer(4, 0), 0]).faults(30);
    calling(4091, &[1, pointer(0, 1), 0, pointer(4, 0), mode(1, R)]).steps(1);
}

#[test]
fn each_list_word_must_be_readable_by_the_caller() {
    let mut bench = calling(0, &list().words());
    bench.machine.domains[0].rights[4] = W | E | G;
    bench.faults(22);
    bench.machine.pointers[0] = untagged_at(1, 9);
    bench.faults(21);
    bench.machine.pointers[0] = untagged_at(1, 10);
    bench.faults(21);
    bench.machine.pointers[0] = untagged_at(12, 4095);
    bench.faults(21);
}

#[test]
fn word_two_is_not_read() {
    let mut bench = world(&[call(3, 0)]);
    bench.machine.pointers[3] = untagged_at(2, 0);
    bench.machine.pointers[0] = untagged_at(1, 8);
    bench.set(1, 8, 0u32);
    bench.set(1, 9, pointer(0, 1));
    bench.steps(1);
    let made = bench.machine.frames[0];
    assert_eq!(made.capabilities[0], capability(1, 8, 3, R, 0));

    let mut bench = calling(0, &[0, pointer(0, 1), 0x7FFF_0000]);
    bench.steps(1);
}

#[test]
fn word_two_must_be_covered_under_a_tag() {
    let words = ArgumentList::new(pointer(0, 1)).words();
    let mut bench = calling(100, &words);
    bench.machine.pointers[0] = tagged_at(4, 100);
    bench.push_frame(frame(0, &[capability(4, 100, 1, R, 1)]));
    for length in [1, 2] {
        bench.machine.frames[0].capabilities[0].length = length;
        bench.faults(24);
    }
    bench.machine.frames[0].capabilities[0].length = 3;
    bench.steps(1);
    let made = bench.machine.frames[1];
    assert_eq!(made.capabilities[0], capability(4, 100, 3, R, 1));
}

#[test]
fn a_return_location_with_both_faults_gives_26() {
    calling(0, &[0, tagged(0, 1) | 0x0001_0000]).faults(26);
    calling(0, &[0, tagged(0, 1)]).faults(30);
}

#[test]
fn an_earlier_30_comes_before_a_later_26() {
    let words = list()
        .raw_argument(pointer(4, 0), 0)
        .raw_argument(0x0001_0000, mode(1, R))
        .words();
    calling(0, &words).faults(30);
    let words = list()
        .raw_argument(0x0001_0000, 0)
        .raw_argument(pointer(4, 0), mode(1, R))
        .words();
    calling(0, &words).faults(26);
}

#[test]
fn the_number_of_arguments_is_the_whole_word() {
    let mut words = list().words();
    for _ in 0..300 {
        words.extend([pointer(4, 0), mode(1, R)]);
    }
    for n in [9, 16, 0x100, 0x1_0000, 0x8000_0000, 0x8000_0001, u32::MAX] {
        words[0] = n;
        calling(0, &words).faults(30);
    }
    words[0] = 8;
    calling(0, &words).steps(1);
}

#[test]
fn a_mode_word_past_the_segments_end_gives_30_before_24() {
    let argument = |pointer_word, mode_word| {
        let words = list().raw_argument(pointer_word, mode_word).words();
        calling(0, &words)
    };
    argument(tagged(4, 4095), mode(2, R)).faults(30);
    argument(tagged(4, 4095), mode(1, R)).faults(24);
    argument(pointer(4, 4095), mode(2, R)).faults(30);
    argument(pointer(4, 4095), mode(1, R)).steps(1);
    argument(pointer(4, 0), mode(4097, R)).faults(30);
    argument(pointer(4, 0), mode(4096, R)).steps(1);
}

#[test]
fn a_tagged_arguments_24_comes_after_its_mode_word() {
    let words = list()
        .raw_argument(tagged(4, 0), mode(1, R))
        .raw_argument(0x0001_0000, mode(1, R))
        .words();
    calling(0, &words).faults(24);
    let words = list().raw_argument(tagged(4, 0), 0).words();
    calling(0, &words).faults(30);
}

/// Domain 0 as a relay: its list in segment 4 was handed to it and is read
/// through capabilities with domain 1 as their source.
fn relay(words: &[u32]) -> Bench {
    let mut bench = calling(0, words);
    bench.machine.pointers[0] = tagged_at(4, 0);
    bench.machine.domains[0].rights[4] = 0;
    let handed = [capability(4, 0, 20, R, 1), capability(3, 2, 4, R | W, 1)];
    bench.push_frame(frame(1, &handed));
    bench
}

#[test]
fn in_a_list_handed_on_each_words_own_tag_counts() {
    let words = list()
        .argument(pointer(3, 2), 1, R)
        .argument(tagged(3, 2), 1, R)
        .words();
    let mut bench = relay(&words);
    bench.steps(1);
    let made = bench.machine.frames[1];
    assert_eq!(made.return_location, untagged_at(0, 1));
    assert_eq!(made.capabilities[0], capability(3, 2, 1, R, 0));
    assert_eq!(made.capabilities[1], capability(3, 2, 1, R, 1));
    assert_eq!(made.capabilities[2], capability(4, 0, 7, R, 1));
}

#[test]
fn the_list_capability_does_not_name_the_relay_as_its_source() {
    let mut bench = relay(&list().words());
    bench.set(2, 0, load(A, 1));
    bench.steps(1);
    assert_eq!(bench.machine.pointers[0], tagged_at(4, 0));
    bench.steps(1);
    assert_eq!(bench.machine.a, pointer(0, 1));
}

#[test]
fn a_list_under_a_tag_is_read_by_the_live_check() {
    let mut bench = relay(&list().words());
    bench.machine.frames[0].capabilities[0].length = 1;
    bench.faults(24);
    bench.machine.frames[0].capabilities[0].length = 20;
    bench.machine.domains[1].rights[4] = W;
    bench.faults(25);
    bench.machine.pointers[0] = tagged_at(4, 4095);
    bench.faults(24);
}

/// Domain 0 passes on words of segment 3 that it got for read and write.
fn passing_on(mode_word: u32, first: u32) -> Bench {
    let words = list().raw_argument(tagged(3, first), mode_word).words();
    let mut bench = calling(0, &words);
    bench.push_frame(frame(1, &[capability(3, 2, 4, R | W, 1)]));
    bench
}

#[test]
fn a_passed_on_capability_has_the_flags_and_words_asked() {
    for (flags, length, first) in [(R, 4, 2), (W, 1, 5), (R | W, 2, 3)] {
        let mut bench = passing_on(mode(length, flags), first);
        bench.steps(1);
        let made = bench.machine.frames[1].capabilities[0];
        let expected = capability(3, first as u16, length as u16, flags, 1);
        assert_eq!(made, expected);
    }
    passing_on(mode(5, R), 2).faults(24);
    passing_on(mode(1, R), 1).faults(24);
    passing_on(mode(1, R), 6).faults(24);
}

#[test]
fn passing_on_makes_no_static_check() {
    let mut bench = passing_on(mode(1, R), 2);
    bench.machine.domains[1].rights[3] = 0;
    bench.steps(1);
    assert_eq!(bench.machine.frames[1].capabilities[0].source, 1);
    let mut bench = passing_on(mode(4, W), 9);
    bench.machine.frames[0].capabilities[0] = capability(3, 9, 4, W, 1);
    bench.steps(1);
    let made = bench.machine.frames[1].capabilities[0];
    assert_eq!(made, capability(3, 9, 4, W, 1));
}

#[test]
fn the_first_covering_capability_gives_the_source() {
    let mut bench = passing_on(mode(2, R), 2);
    let too_short = capability(3, 2, 1, R, 0);
    let failing = capability(3, 2, 2, R, 0);
    let passing = capability(3, 2, 4, R, 1);
    bench.machine.frames[0] = frame(1, &[too_short, failing, passing]);
    let mut other = bench.clone();
    bench.steps(1);
    assert_eq!(bench.machine.frames[1].capabilities[0].source, 0);
    other.machine.frames[0] = frame(1, &[too_short, passing, failing]);
    other.steps(1);
    assert_eq!(other.machine.frames[1].capabilities[0].source, 1);
}

#[test]
fn two_capabilities_are_not_put_together_to_cover_one_argument() {
    let mut bench = passing_on(mode(2, R), 2);
    let halves = [capability(3, 2, 1, R, 1), capability(3, 3, 1, R, 1)];
    bench.machine.frames[0] = frame(1, &halves);
    bench.faults(24);
}

#[test]
fn an_argument_on_the_list_comes_before_the_list_capability() {
    let words = list().argument(tagged(4, 0), 1, R).words();
    let mut bench = calling(0, &words);
    bench.set(2, 0, load(A, 0));
    bench.set(2, 1, load(A, 1));
    bench.machine.domain_count = 3;
    bench.push_frame(frame(1, &[capability(4, 0, 1, R, 2)]));
    bench.steps(1);
    let made = bench.machine.frames[1];
    assert_eq!(made.capabilities[0], capability(4, 0, 1, R, 2));
    assert_eq!(made.capabilities[1], capability(4, 0, 5, R, 0));
    bench.faults(25);
    bench.set(2, 0, load(A, 1));
    bench.steps(1);
    assert_eq!(bench.machine.a, pointer(0, 1));
}

#[test]
fn the_return_location_is_not_checked_at_the_call() {
    for place in [pointer(15, 4095), pointer(1, 0), pointer(0, 10)] {
        let mut bench = calling(0, &[0, place]);
        bench.steps(1);
        let recorded = bench.machine.frames[0].return_location;
        assert_eq!(Ok(recorded), Pointer::from_word(place));
    }
}

#[test]
fn arguments_are_judged_by_the_sources_rights_at_use() {
    let words = list().argument(pointer(4, 7), 1, W).words();
    let mut bench = calling(0, &words);
    bench.set(2, 0, store(A, 3).indirect());
    bench.machine.domains[0].rights[4] = R;
    bench.steps(1);
    bench.faults(25);
    bench.machine.domains[0].rights[4] = R | W;
    bench.machine.a = 5;
    bench.steps(1);
    assert_eq!(bench.changed(), [(4, 7, 5)]);
}
