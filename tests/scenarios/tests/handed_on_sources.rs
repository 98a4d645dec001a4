//! Lists handed on: the source that is passed on with the list and its
//! arguments, and the frame that it is taken from.

use assembler::*;
use reference::record::Capability;
use scenarios::relay::*;
use scenarios::*;

#[test]
fn the_first_covering_capability_gives_the_source() {
    let short = on(0, 4, R, READER);
    let (makers, readers) = (on(0, 5, R, MAKER), on(0, 5, R, READER));
    for (capabilities, source) in [
        ([short, makers, readers], MAKER),
        ([short, readers, makers], READER),
        ([makers, readers, short], MAKER),
        ([on(0, 5, W, READER), readers, makers], READER),
    ] {
        let made = list_capability(relay(&list(1), &capabilities));
        assert_eq!(made.source, source);
    }
}

#[test]
fn no_static_check_is_made_of_the_source_passed_on() {
    let [first, second] = [on(0, 2, R, READER), on(2, 3, R, READER)];
    let failing = on(0, 5, R, CALLED);
    let capabilities = [first, second, failing, on(0, 5, R, MAKER)];
    let mut bench = relay(&list(1), &capabilities);
    bench.set(2, 0, load(A, 0));
    bench.steps(1);
    assert_eq!(bench.machine.frames[1].capabilities[1], failing);
    bench.faults(25);
    bench.machine.domains[usize::from(CALLED)].rights[4] = R;
    bench.steps(1);
    assert_eq!(bench.machine.a, 1);
}

#[test]
fn nothing_is_passed_on_where_a_is_untagged() {
    for capabilities in [[on(0, 3, R, MAKER)], [on(0, 3, W, MAKER)]] {
        let mut bench = relay(&list(0), &capabilities);
        bench.machine.pointers[0].tag = false;
        bench.faults(22);
        bench.machine.domains[usize::from(RELAY)].rights[4] = R;
        assert_eq!(list_capability(bench), on(0, 3, R, RELAY));
    }
    let mut bench = relay(&list(0), &[on(0, 3, R, MAKER)]);
    bench.machine.pointers[0].tag = false;
    bench.machine.domains[usize::from(RELAY)].rights[4] = R;
    bench.machine.frames[0] = Default::default();
    bench.machine.frame_count = 0;
    bench.steps(1);
    let made = bench.machine.frames[0];
    assert_eq!(made.capabilities[0], on(0, 3, R, RELAY), "no frame needed");
}

#[test]
fn the_source_may_be_the_relay_itself() {
    for n in [0, 1, 8] {
        let [own, makers] = [RELAY, MAKER].map(|source| on(0, words_of(n), R, source));
        for capabilities in [&[own][..], &[own, makers]] {
            let mut bench = relay(&list(n), capabilities);
            bench.faults(25);
            let_read(&mut bench, RELAY);
            assert_eq!(list_capability(bench), own);
        }
        let mut bench = relay(&list(n), &[makers, own]);
        let_read(&mut bench, RELAY);
        assert_eq!(list_capability(bench), makers);
    }
}

#[test]
fn the_source_may_be_the_called_domain() {
    let covering = on(0, 3, R, CALLED);
    let mut bench = relay(&list(0), &[covering]);
    bench.set(2, 0, load(A, 1));
    bench.faults(25);
    let_read(&mut bench, CALLED);
    bench.steps(1);
    assert_eq!(live_capabilities(&bench), [covering]);
    let mut without = bench.clone();
    without.machine.domains[usize::from(CALLED)].rights[4] = W;
    without.faults(25);
    bench.steps(1);
    assert_eq!(bench.machine.a, pointer(0, 1));
}

#[test]
fn the_ninth_capability_may_be_the_one_that_covers() {
    let whole = on(0, 5, R, MAKER);
    let mut rows = [capability(3, AT, 5, R, READER); 9];
    rows[8] = whole;
    assert_eq!(list_capability(relay(&list(1), &rows)), whole);
    for word in 0..5 {
        rows[usize::from(word)] = on(word, 1, R, READER);
    }
    rows[5] = on(0, 4, R, READER);
    rows[6] = on(1, 4, R, READER);
    rows[7] = on(0, 5, W, READER);
    assert_eq!(list_capability(relay(&list(1), &rows)), whole);
    rows[8] = on(0, 4, R, MAKER);
    relay(&list(1), &rows).faults(24);
}

#[test]
fn the_list_that_the_relay_was_called_with_covers_itself() {
    for n in 0..=8 {
        let own = on(0, words_of(n), R, MAKER);
        let mut rows = vec![capability(1, 0, 1, R, MAKER); n];
        rows.push(own);
        let mut bench = relay(&list(n), &rows);
        bench.steps(1);
        let mut made = vec![capability(1, 0, 1, R, RELAY); n];
        made.push(own);
        assert_eq!(live_capabilities(&bench), made);
    }
}

/// The relay with a tagged a at a list without arguments, which lies in words 4
/// to 6 of its own stack segment.
fn in_the_stack(capabilities: &[Capability]) -> Bench {
    let mut bench = relay(&[], capabilities);
    bench.machine.pointers[0] = tagged_at(1, 4);
    for (place, word) in (4..).zip(list(0)) {
        bench.set(1, place, word);
    }
    bench
}

#[test]
fn in_the_callers_own_stack_the_capabilitys_source_counts() {
    let [makers, own] = [MAKER, RELAY].map(|source| capability(1, 4, 3, R, source));
    in_the_stack(&[on(0, 3, R, MAKER)]).faults(24);
    in_the_stack(&[capability(1, 4, 2, R, RELAY)]).faults(24);
    in_the_stack(&[makers]).faults(25);
    in_the_stack(&[makers, own]).faults(25);
    assert_eq!(list_capability(in_the_stack(&[own])), own);
    assert_eq!(list_capability(in_the_stack(&[own, makers])), own);
    let mut bench = in_the_stack(&[makers]);
    bench.machine.domains[usize::from(RELAY)].rights[1] = 0;
    bench.machine.domains[usize::from(MAKER)].rights[1] = R;
    assert_eq!(list_capability(bench), makers);
}

/// The capabilities that a call with these arguments makes, two words each for
/// reading and writing. The live frame has the list, and the words 4 and 5 of
/// segment 3 by the reader.
fn made_of(arguments: &[u32]) -> Vec<Capability> {
    let none = ArgumentList::new(pointer(0, 1));
    let add = |list: ArgumentList, &word: &u32| list.argument(word, 2, R | W);
    let words = arguments.iter().fold(none, add).words();
    let length = words.len() as u16;
    let lent = capability(3, 4, 2, R | W, READER);
    let mut bench = relay(&words, &[on(0, length, R, MAKER), lent]);
    bench.steps(1);
    live_capabilities(&bench).to_vec()
}

#[test]
fn each_arguments_own_tag_says_whose_it_is() {
    let (lent, own) = (tagged(3, 4), pointer(3, 4));
    let [readers, relays] = [READER, RELAY].map(|source| capability(3, 4, 2, R | W, source));
    assert_eq!(made_of(&[lent]), [readers, on(0, 5, R, MAKER)]);
    assert_eq!(made_of(&[own]), [relays, on(0, 5, R, MAKER)]);
    let list = on(0, 7, R, MAKER);
    assert_eq!(made_of(&[lent, own]), [readers, relays, list]);
    assert_eq!(made_of(&[own, lent]), [relays, readers, list]);
}

#[test]
fn an_argument_may_be_words_of_the_list_itself() {
    let whole = on(0, 5, R, MAKER);
    for (tag, source) in [(0, RELAY), (0x8000_0000, MAKER)] {
        let argument = pointer(LISTS.into(), AT.into()) | tag;
        let list = ArgumentList::new(pointer(0, 1)).argument(argument, 5, R);
        let mut bench = relay(&list.words(), &[whole]);
        bench.steps(1);
        assert_eq!(live_capabilities(&bench), [on(0, 5, R, source), whole]);
    }
    let written = ArgumentList::new(pointer(0, 1)).argument(tagged(4, 100), 5, R | W);
    relay(&written.words(), &[whole]).faults(24);
}

/// The same with so many frames in use, of which the older ones have these
/// capabilities.
fn above(older: &[Capability], frames: u8, mut bench: Bench) -> Bench {
    let live = bench.machine.frames[0];
    bench.machine.frame_count = 0;
    for _ in 1..frames {
        bench.push_frame(frame(MAKER, older));
    }
    bench.push_frame(live);
    bench
}

#[test]
fn the_whole_effect_with_one_to_seven_frames_in_use() {
    let list_there = on(0, 5, R, MAKER);
    for frames in 1..=7 {
        let older = [capability(3, 0, 1, R, CALLED)];
        let mut bench = above(&older, frames, relay(&list(1), &[list_there]));
        bench.machine.pointers[1] = tagged_at(5, 6);
        let mut expected = bench.machine.clone();
        let mut made = frame(RELAY, &[capability(1, 0, 1, R, RELAY), list_there]);
        made.return_location = untagged_at(0, 1);
        made.s = tagged_at(5, 6);
        expected.frames[usize::from(frames)] = made;
        expected.frame_count = frames + 1;
        expected.pointers[2] = untagged_at(3, 0);
        expected.domain = CALLED;
        expected.location.segment = 2;
        expected.location.word = 0;
        for (k, number) in (0..2).zip([frames, frames + 1]) {
            let row = &mut expected.recent[k];
            (row.capability, row.frame) = (list_there, number);
        }
        let numbers = [14, 15].into_iter().chain(0..);
        for (row, recency) in expected.recent.iter_mut().zip(numbers) {
            row.recency = recency;
        }
        bench.steps(1);
        assert_eq!(bench.machine, expected);
        assert_eq!(bench.changed(), []);
    }
}

#[test]
fn with_eight_frames_in_use_the_list_is_not_looked_at() {
    for (n, covering, number) in [
        (0, on(0, 3, R, MAKER), 0),
        (0, on(0, 2, R, MAKER), 24),
        (0, on(0, 3, R, RELAY), 25),
        (9, on(0, 1, R, MAKER), 30),
    ] {
        let bench = relay(&[n, pointer(0, 1), 0], &[covering]);
        let older = [on(0, 3, R, MAKER)];
        assert_eq!(above(&older, 7, bench.clone()).step(), number);
        above(&older, 8, bench).faults(31);
    }
}

#[test]
fn an_older_frame_does_not_cover() {
    let [makers, readers] = [MAKER, READER].map(|source| on(0, 3, R, source));
    for frames in 2..=7 {
        for uncovered in [on(0, 2, R, MAKER), capability(1, 0, 10, R, RELAY)] {
            let bench = relay(&list(0), &[uncovered]);
            above(&[makers], frames, bench).faults(24);
        }
        let bench = above(&[readers], frames, relay(&list(0), &[makers]));
        assert_eq!(list_capability(bench), makers);
    }
}
