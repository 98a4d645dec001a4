//! Lists handed on: CALL with a tagged a. One read capability of the live
//! frame must cover the whole list, judged after n and before the rest.

use assembler::*;
use reference::may_see;
use scenarios::relay::*;
use scenarios::*;

#[test]
fn the_covering_capabilitys_source_is_passed_on() {
    for n in 0..=8 {
        let length = words_of(n);
        let exact = capability(LISTS, AT, length, R, MAKER);
        let wider = capability(LISTS, AT - 1, length + 2, R, MAKER);
        for covering in [exact, wider] {
            assert_eq!(list_capability(relay(&list(n), &[covering])), exact);
        }
    }
}

#[test]
fn a_covering_capability_may_have_write_too() {
    for n in [0, 8] {
        let covering = on(0, words_of(n), R | W, MAKER);
        let made = list_capability(relay(&list(n), &[covering]));
        assert_eq!(made, on(0, words_of(n), R, MAKER), "read alone");
    }
}

#[test]
fn write_alone_does_not_cover_a_list() {
    for n in [0, 1, 8] {
        let length = words_of(n);
        let whole = on(0, length, W, MAKER);
        relay(&list(n), &[whole]).faults(24);
        relay(&list(n), &[whole, on(0, 1, R, MAKER)]).faults(24);
        relay(&list(n), &[on(0, length - 1, R, MAKER), whole]).faults(24);
    }
}

#[test]
fn one_word_too_few_does_not_cover_a_list() {
    for n in [0, 1, 8] {
        let short = words_of(n) - 1;
        let without_first = on(1, short, R, MAKER);
        relay(&list(n), &[on(0, short, R, MAKER)]).faults(24);
        relay(&list(n), &[without_first]).faults(24);
        relay(&list(n), &[without_first, on(0, 1, R, MAKER)]).faults(24);
        let elsewhere = capability(3, AT, short + 1, R, MAKER);
        relay(&list(n), &[elsewhere, on(0, short, R, MAKER)]).faults(24);
    }
}

#[test]
fn two_capabilities_together_do_not_cover_a_list() {
    for n in [0, 1, 8] {
        let length = words_of(n);
        for first in 1..length {
            let halves = [
                on(0, first, R, MAKER),
                on(first, length - first, R | W, MAKER),
            ];
            relay(&list(n), &halves).faults(24);
        }
        let overlapping = [on(0, length - 1, R, MAKER), on(1, length, R, READER)];
        relay(&list(n), &overlapping).faults(24);
    }
}

#[test]
fn no_capability_and_no_frame() {
    relay(&list(0), &[capability(1, 0, 10, R, RELAY)]).faults(24);
    let mut bench = relay(&list(0), &[on(0, 3, R, MAKER)]);
    bench.machine.frames[0] = Default::default();
    bench.machine.frame_count = 0;
    bench.faults(24);
}

#[test]
fn n_is_judged_before_the_cover() {
    let word_0 = on(0, 1, R, MAKER);
    let mut words = list(8);
    relay(&words, &[word_0]).faults(24);
    for n in [9, 16, 0x8000_0000, u32::MAX] {
        words[0] = n;
        relay(&words, &[word_0]).faults(30);
    }
}

#[test]
fn the_cover_is_judged_before_the_return_location() {
    let (read, whole) = (on(0, 2, R, MAKER), on(0, 3, R, MAKER));
    for (back, fault) in [(0x0001_0000, 26), (tagged(0, 1), 30)] {
        relay(&[0, back, 0], &[read]).faults(24);
        relay(&[0, back, 0], &[read, whole]).faults(fault);
    }
    let word_0 = on(0, 1, R, MAKER);
    let failing = on(1, 1, R, RELAY);
    relay(&list(0), &[word_0]).faults(24);
    relay(&list(0), &[word_0, failing]).faults(24);
    relay(&list(0), &[word_0, failing, whole]).faults(25);
}

#[test]
fn the_cover_is_judged_before_the_arguments() {
    let bits = [1, pointer(0, 1), 0, 0x0001_0000, mode(1, R)];
    let no_mode = [1, pointer(0, 1), 0, pointer(1, 0), 0];
    for (words, fault) in [(bits, 26), (no_mode, 30)] {
        let halves = [on(0, 1, R, MAKER), on(1, 4, R, MAKER)];
        relay(&words, &halves).faults(24);
        relay(&words, &[on(0, 5, R, MAKER)]).faults(fault);
    }
}

#[test]
fn a_list_that_would_pass_word_4095() {
    let to_the_end = |at: u16| [capability(LISTS, at, 4096 - at, R, MAKER)];
    for n in [0, 1, 8] {
        let last = 4096 - words_of(n);
        let made = list_capability(relay_at(last, &list(n), &to_the_end(last)));
        assert_eq!(made, capability(LISTS, last, words_of(n), R, MAKER));
        for at in [last + 1, last + 2, 4095] {
            let mut bench = relay_at(at, &list(n), &to_the_end(at));
            bench.faults(24);
            bench.machine.pointers[0].tag = false;
            bench.machine.domains[usize::from(RELAY)].rights[4] = R;
            bench.faults(23);
        }
    }
    relay_at(4095, &[9], &to_the_end(4095)).faults(30);
}

#[test]
fn each_word_is_read_by_its_own_first_match() {
    let whole = on(0, 7, R, MAKER);
    relay(&list(2), &[on(0, 7, R, RELAY)]).faults(25);
    relay(&list(2), &[on(0, 7, R, RELAY), whole]).faults(25);
    for word in [0, 1, 3, 4, 5, 6] {
        let failing = on(word, 1, R, RELAY);
        let mut bench = relay(&list(2), &[failing, whole]);
        bench.faults(25);
        bench.machine.domains[usize::from(RELAY)].rights[4] = R;
        assert_eq!(list_capability(bench).source, MAKER);
        assert_eq!(list_capability(relay(&list(2), &[whole, failing])), whole);
    }
    let not_read = on(2, 1, R, RELAY);
    assert_eq!(list_capability(relay(&list(2), &[not_read, whole])), whole);
}

#[test]
fn each_word_of_a_single_argument_has_its_own_first_match() {
    let whole = on(0, 5, R, MAKER);
    for word in [3, 4] {
        let failing = on(word, 1, R, RELAY);
        relay(&list(1), &[failing, whole]).faults(25);
        relay(&list(1), &[failing, failing, whole, whole]).faults(25);
        assert_eq!(list_capability(relay(&list(1), &[whole, failing])), whole);
    }
    relay(&list(1), &[on(2, 2, R, RELAY), whole]).faults(25);
    let not_read = on(2, 1, R, RELAY);
    assert_eq!(list_capability(relay(&list(1), &[not_read, whole])), whole);
}

#[test]
fn word_two_of_a_list_handed_on_need_not_exist() {
    let covering = capability(3, 8, 3, R, CALLED);
    let mut bench = relay(&[], &[covering]);
    bench.machine.pointers[0] = tagged_at(3, 8);
    bench.set(3, 9, pointer(0, 1));
    bench.set(2, 0, load(A, 2));
    bench.steps(1);
    assert_eq!(bench.machine.frames[1].capabilities[0], covering);
    bench.faults(25);
}

#[test]
fn what_a_relay_may_see_is_counted_by_the_first_match() {
    let capabilities = [on(2, 1, R, RELAY), on(0, 3, R, MAKER)];
    let bench = relay(&list(0), &capabilities);
    let seen = [0, 1, 2, 3].map(|word| may_see(&bench.machine, LISTS, AT + word));
    assert_eq!(seen, [true, true, false, false]);
    assert_eq!(list_capability(bench), on(0, 3, R, MAKER));
}
