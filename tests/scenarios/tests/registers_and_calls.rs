//! The registers and CALL: the words of its list, the list capability, and
//! arguments passed on.

use assembler::*;
use reference::recent::fresh;
use reference::record::Capability;
use scenarios::registers::{held, numbers};
use scenarios::relay::*;
use scenarios::*;

#[test]
fn a_call_enters_the_list_capability() {
    for n in [0, 1, 8] {
        let mut bench = relay(&list(n), &[on(0, words_of(n), R, MAKER)]);
        bench.machine.pointers[0].tag = false;
        let_read(&mut bench, RELAY);
        bench.steps(1);
        assert_eq!(held(&bench), [(on(0, words_of(n), R, RELAY), 2)]);
    }
}

#[test]
fn the_list_is_entered_after_its_words_were_read() {
    let whole = on(0, 5, R, MAKER);
    let mut bench = relay(&list(1), &[whole]);
    bench.steps(1);
    assert_eq!(held(&bench), [(whole, 2), (whole, 1)]);
    assert_eq!(bench.machine.recent[0].frame, 1);
    assert_eq!(bench.machine.recent[1].frame, 2);
}

#[test]
fn the_words_of_a_list_are_read_in_order_and_word_2_is_not() {
    let rows = [on(0, 1, R, MAKER), on(1, 1, R, MAKER), on(2, 1, R, MAKER)];
    let [zero, one, two] = rows;
    let whole = on(0, 5, R, MAKER);
    let mut bench = relay(&list(1), &[zero, one, two, whole]);
    bench.steps(1);
    let due = [(whole, 2), (whole, 1), (one, 1), (zero, 1)];
    assert_eq!(held(&bench), due);
    let frames = bench.machine.recent.map(|row| row.frame);
    assert_eq!(frames[..4], [1, 1, 1, 2]);
    assert_eq!(numbers(&bench)[..4], [12, 13, 14, 15]);
}

#[test]
fn a_call_that_faults_leaves_the_registers() {
    let whole = on(0, 5, R, MAKER);
    let spoiled = |place: usize, word: u32| {
        let mut words = list(1);
        words[place] = word;
        relay(&words, &[on(0, 1, R, MAKER), whole])
    };
    for (place, word, fault) in [
        (0, 9, 30),
        (1, 0x0001_0000, 26),
        (1, tagged(0, 1), 30),
        (3, 0x0001_0000, 26),
        (3, tagged(3, 0), 24),
        (4, 0, 30),
    ] {
        let mut bench = spoiled(place, word);
        bench.faults(fault);
        assert_eq!(bench.machine.recent, fresh());
    }
    let failing = [on(0, 3, R, MAKER), on(3, 1, R, RELAY), whole];
    let mut bench = relay(&list(1), &failing);
    bench.faults(25);
    assert_eq!(bench.machine.recent, fresh());
}

#[test]
fn the_cover_uses_and_renews_no_register() {
    let short = on(0, 4, R, MAKER);
    let mut bench = relay(&list(0), &[short, on(0, 5, R, READER)]);
    bench.set(LISTS, AT, 1u32);
    bench.set(LISTS, AT + 3, pointer(1, 0));
    bench.set(LISTS, AT + 4, mode(1, R));
    bench.steps(1);
    let made = *live_capabilities(&bench).last().expect("the list");
    assert_eq!(made, on(0, 5, R, READER));
    assert_eq!(held(&bench), [(made, 2), (short, 1)], "word 4 not entered");
}

/// The relay's own list in its stack, words 2 on, with these arguments and
/// this live frame; a is untagged.
fn own_list(arguments: &[(u32, u32, u8)], live: &[Capability]) -> Bench {
    let mut bench = relay(&[], live);
    let mut words = ArgumentList::new(pointer(0, 1));
    for &(place, length, flags) in arguments {
        words = words.argument(place, length, flags);
    }
    for (place, word) in (2..).zip(words.words()) {
        bench.set(1, place, word);
    }
    bench.machine.pointers[0] = untagged_at(1, 2);
    bench
}

#[test]
fn passing_an_argument_on_uses_and_renews_no_register() {
    let lent = capability(3, 4, 4, R | W, READER);
    let mut bench = own_list(&[(tagged(3, 5), 2, R)], &[lent]);
    bench.steps(1);
    let passed_on = capability(3, 5, 2, R, READER);
    let list = capability(1, 2, 5, R, RELAY);
    assert_eq!(live_capabilities(&bench), [passed_on, list]);
    assert_eq!(held(&bench), [(list, 2)]);
}

#[test]
fn a_list_on_words_of_an_argument_of_another_source_is_not_entered() {
    let makers = capability(1, 3, 1, R, MAKER);
    for flags in [R, W, R | W] {
        let lent = capability(1, 3, 1, flags, MAKER);
        let mut bench = own_list(&[(tagged(1, 3), 1, flags)], &[lent]);
        bench.steps(1);
        assert_eq!(bench.machine.recent, fresh(), "flags {flags}");
    }
    let mut bench = own_list(&[(pointer(1, 3), 1, R)], &[makers]);
    bench.steps(1);
    let list = capability(1, 2, 5, R, RELAY);
    assert_eq!(held(&bench), [(list, 2)], "an argument of the same source");
}

#[test]
fn the_list_is_judged_by_its_own_row() {
    let lent = capability(1, 2, 1, R, MAKER);
    let arguments = [(pointer(1, 2), 7, R), (tagged(1, 2), 1, R)];
    let mut bench = own_list(&arguments, &[lent]);
    bench.set(2, 0, load(A, 0));
    bench.steps(1);
    let list = capability(1, 2, 7, R, RELAY);
    assert_eq!(live_capabilities(&bench), [list, lent, list]);
    assert_eq!(bench.machine.recent, fresh());
    bench.steps(1);
    assert_eq!(held(&bench), [(list, 2)], "found as the first argument");
}

#[test]
fn own_and_passed_on_arguments_on_the_same_words() {
    let lent = capability(3, 4, 4, R | W, READER);
    for (first, second, sources) in [
        (pointer(3, 4), tagged(3, 4), [RELAY, READER]),
        (tagged(3, 4), pointer(3, 4), [READER, RELAY]),
    ] {
        let mut bench = own_list(&[(first, 2, R), (second, 3, R)], &[lent]);
        for source in sources {
            bench.machine.domains[usize::from(source)].rights[3] = R;
        }
        let code = [
            epp(4, A, 5).indirect(),
            load(4, 2),
            load(4, 0),
            epp(4, A, 5).indirect(),
        ];
        for (place, code) in (0..).zip(code) {
            bench.set(2, place, code);
        }
        bench.steps(2);
        let list = (capability(1, 2, 7, R, RELAY), 2);
        assert_eq!(held(&bench), [list]);
        bench.steps(1);
        assert_eq!(held(&bench), [list], "the second's word is not entered");
        bench.steps(1);
        let found = (capability(3, 4, 2, R, sources[0]), 2);
        assert_eq!(held(&bench), [found, list], "the first's word is");
        bench.steps(1);
        assert_eq!(held(&bench), [list, found]);
    }
}

#[test]
fn eight_frames_deep_the_oldest_registers_are_gone() {
    let mut bench = own_list(&[], &[capability(3, 0, 1, R, CALLED)]);
    bench.machine.frames[0] = Default::default();
    bench.machine.frame_count = 0;
    let rows: [Capability; 9] = std::array::from_fn(|k| on(2 * k as u16, 1, R, READER));
    for depth in 1..=8u8 {
        bench.push_frame(frame(MAKER, &rows));
        bench.set(0, 0, load(3, 0));
        for word in 0..3 {
            bench.machine.location.word = 0;
            bench.machine.pointers[3] = tagged_at(LISTS, AT + 2 * word);
            bench.steps(1);
        }
        let oldest = held(&bench).last().map(|row| row.1);
        let due = if depth <= 5 { 1 } else { depth - 5 };
        assert_eq!(oldest, Some(due));
    }
    assert_eq!(held(&bench).len(), 16);
}
