//! The sixteen registers of recent capabilities: which references use them,
//! what is entered, and in which order they are replaced.

use assembler::*;
use reference::recent::fresh;
use scenarios::registers::*;
use scenarios::*;

/// Three capabilities of domain 1 on data of both domains, four words each.
fn three() -> [reference::record::Capability; 3] {
    [0, 10, 20].map(|word| capability(4, word, 4, R | W, 1))
}

/// Recency numbers that begin with these and go on from 0.
fn beginning<const N: usize>(first: [u8; N]) -> [u8; 16] {
    std::array::from_fn(|k| match first.get(k) {
        Some(&number) => number,
        None => (k - N) as u8,
    })
}

#[test]
fn a_fresh_machine_has_empty_registers() {
    let bench = world(&[]);
    assert_eq!(held(&bench), []);
    assert_eq!(numbers(&bench), beginning([]));
    assert_eq!(bench.machine.recent, fresh());
}

#[test]
fn a_new_entry_replaces_the_register_at_0() {
    let [one, two, _] = three();
    let mut bench = reading(frame(0, &three()));
    read(&mut bench, 4, 0);
    assert_eq!(held(&bench), [(one, 1)]);
    assert_eq!(numbers(&bench), beginning([15]));
    read(&mut bench, 4, 11);
    assert_eq!(held(&bench), [(two, 1), (one, 1)]);
    assert_eq!(numbers(&bench), beginning([14, 15]));
}

#[test]
fn a_match_rises() {
    let [one, two, three_] = three();
    let mut bench = reading(frame(0, &three()));
    for word in [0, 10, 20] {
        read(&mut bench, 4, word);
    }
    assert_eq!(numbers(&bench), beginning([13, 14, 15]));
    read(&mut bench, 4, 13);
    assert_eq!(held(&bench), [(two, 1), (three_, 1), (one, 1)]);
    assert_eq!(numbers(&bench), beginning([13, 15, 14]));
    read(&mut bench, 4, 12);
    assert_eq!(numbers(&bench), beginning([13, 15, 14]), "it is the newest");
    read(&mut bench, 4, 0);
    assert_eq!(numbers(&bench), beginning([15, 14, 13]));
}

#[test]
fn the_lowest_register_that_matches_is_taken() {
    let [one, ..] = three();
    let mut bench = reading(frame(0, &three()));
    hold(&mut bench, 9, one, 1);
    hold(&mut bench, 5, one, 1);
    read(&mut bench, 4, 2);
    let due = [0, 1, 2, 3, 4, 15, 5, 6, 7, 8, 9, 10, 11, 12, 13, 14];
    assert_eq!(numbers(&bench), due);
}

#[test]
fn a_register_matches_by_segment_word_and_flag() {
    let [reads, writes] = [R, W].map(|flags| capability(4, 5, 2, flags, 1));
    let mut bench = reading(frame(0, &[reads, writes]));
    bench.set(0, 1, store(3, 0));
    read(&mut bench, 4, 6);
    bench.steps(1);
    assert_eq!(held(&bench), [(writes, 1), (reads, 1)]);
    for word in [4, 7] {
        aim(&mut bench, 4, word);
        bench.faults(24);
    }
    aim(&mut bench, 1, 5);
    bench.faults(24);
    read(&mut bench, 4, 5);
    assert_eq!(held(&bench), [(reads, 1), (writes, 1)]);
}

#[test]
fn the_source_of_a_registers_capability_must_pass() {
    let mut bench = reading(frame(0, &three()));
    read(&mut bench, 4, 0);
    bench.machine.domains[1].rights[4] = W;
    aim(&mut bench, 4, 0);
    bench.faults(25);
    let long = capability(1, 9, 2, R, 0);
    let mut bench = reading(frame(0, &[long]));
    read(&mut bench, 1, 9);
    assert_eq!(held(&bench), [(long, 1)]);
    aim(&mut bench, 1, 10);
    bench.faults(25);
}

#[test]
fn a_match_of_one_source_may_be_another_row() {
    let [short, long] = [2, 8].map(|length| capability(4, 0, length, R, 1));
    let mut bench = reading(frame(0, &[short, long]));
    read(&mut bench, 4, 5);
    assert_eq!(held(&bench), [(long, 1)]);
    read(&mut bench, 4, 0);
    assert_eq!(held(&bench), [(long, 1)], "the register's, not the first's");
}

#[test]
fn untagged_references_renew_nothing() {
    let mut bench = world(&[load(3, 0), store(3, 0), epp(4, 3, 0).indirect()]);
    bench.push_frame(frame(0, &three()));
    bench.machine.pointers[3] = untagged_at(4, 0);
    bench.steps(3);
    assert_eq!(bench.machine.recent, fresh());
}

/// What the registers hold after one instruction whose base register 3 points
/// to the first of the three capabilities. Each of their words points to the
/// second one's first word.
fn after(code: Code) -> Vec<(reference::record::Capability, u8)> {
    let mut bench = world(&[code]);
    bench.push_frame(frame(0, &three()));
    for word in 0..24 {
        bench.set(4, word, pointer(4, 10));
    }
    bench.machine.pointers[3] = tagged_at(4, 0);
    bench.machine.a = 1;
    bench.steps(1);
    held(&bench)
}

#[test]
fn what_each_instruction_refers_to() {
    let [one, two, _] = three().map(|row| (row, 1));
    for code in [load, store, add, sub] {
        assert_eq!(after(code(3, 0)), [one]);
        assert_eq!(after(code(3, 0).indirect()), [two, one]);
    }
    assert_eq!(after(spp(5, 3, 0)), [one]);
    assert_eq!(after(spp(5, 3, 0).indirect()), [two, one]);
    assert_eq!(after(epp(5, 3, 0)), []);
    assert_eq!(after(epp(5, 3, 0).indirect()), [one]);
    for code in [jz, jm] {
        assert_eq!(after(code(3, 0)), [], "not taken");
        assert_eq!(after(code(3, 0).indirect()), [one], "not taken");
    }
    assert_eq!(after(lit(3)), []);
    assert_eq!(after(halt()), []);
}

#[test]
fn the_second_reference_sees_what_the_first_left() {
    let mut bench = world(&[load(3, 0).indirect()]);
    let [one, ..] = three();
    bench.push_frame(frame(0, &three()));
    bench.set(4, 0, pointer(4, 1));
    bench.machine.pointers[3] = tagged_at(4, 0);
    bench.steps(1);
    assert_eq!(held(&bench), [(one, 1)], "entered once");
    assert_eq!(numbers(&bench), beginning([15]));
}

#[test]
fn a_fault_between_two_references_leaves_the_registers() {
    let [one, two, _] = three();
    let mut bench = reading(frame(0, &three()));
    bench.set(0, 1, load(3, 0).indirect());
    bench.set(4, 0, pointer(4, 30));
    read(&mut bench, 4, 0);
    read(&mut bench, 4, 10);
    assert_eq!(held(&bench), [(two, 1), (one, 1)]);
    bench.machine.pointers[3] = tagged_at(4, 0);
    bench.faults(24);
    assert_eq!(held(&bench), [(two, 1), (one, 1)]);
    bench.set(4, 0, 0x0001_0000u32);
    bench.faults(26);
    bench.set(4, 0, pointer(4, 12));
    bench.steps(1);
    assert_eq!(held(&bench), [(two, 1), (one, 1)], "one rose, then two");
    bench.machine.location.word = 1;
    bench.set(4, 0, pointer(4, 22));
    bench.steps(1);
    assert_eq!(held(&bench)[1..], [(one, 1), (two, 1)]);
}

#[test]
fn a_fault_of_the_source_between_two_references() {
    let failing = capability(3, 0, 4, R, 0);
    let [one, ..] = three();
    let mut bench = world(&[load(3, 0).indirect()]);
    bench.push_frame(frame(0, &[one, failing]));
    bench.set(4, 0, pointer(3, 1));
    bench.machine.pointers[3] = tagged_at(4, 0);
    bench.faults(25);
    assert_eq!(bench.machine.recent, fresh());
}

#[test]
fn a_capability_on_words_of_an_earlier_one_of_another_source() {
    let long = capability(4, 0, 4, R, 0);
    for (earlier, entered) in [
        (capability(4, 0, 2, R, 1), false),
        (capability(4, 0, 2, W, 1), false),
        (capability(4, 0, 4, W, 1), false),
        (capability(4, 1, 1, R | W, 1), false),
        (capability(4, 0, 2, R | W, 0), true),
        (capability(4, 4, 9, R, 1), true),
        (capability(3, 0, 4, R, 1), true),
    ] {
        let mut bench = reading(frame(0, &[earlier, long]));
        read(&mut bench, 4, 3);
        assert_eq!(held(&bench) == [(long, 1)], entered, "{earlier:?}");
        assert_eq!(bench.machine.recent == fresh(), !entered);
        let mut bench = reading(frame(0, &[long, earlier]));
        read(&mut bench, 4, 3);
        assert_eq!(held(&bench), [(long, 1)], "it comes first");
    }
}

#[test]
fn an_unentered_match_leaves_the_order() {
    let [one, two, _] = three();
    let own = capability(4, 30, 2, W, 0);
    let passed_on = capability(4, 30, 4, R, 1);
    let mut bench = reading(frame(0, &[one, two, own, passed_on]));
    read(&mut bench, 4, 0);
    read(&mut bench, 4, 10);
    for word in [30, 33, 31] {
        read(&mut bench, 4, word);
        assert_eq!(numbers(&bench), beginning([14, 15]));
    }
}

#[test]
fn an_older_frames_register_never_matches() {
    let [one, two, _] = three();
    let mut bench = reading(frame(0, &[one, two]));
    read(&mut bench, 4, 0);
    read(&mut bench, 4, 10);
    bench.push_frame(frame(0, &[one]));
    aim(&mut bench, 4, 10);
    bench.faults(24);
    read(&mut bench, 4, 0);
    assert_eq!(held(&bench), [(one, 2), (two, 1), (one, 1)]);
    assert_eq!(numbers(&bench), beginning([13, 14, 15]));
}

#[test]
fn more_than_sixteen_entries_replace_older_frames_registers() {
    let nine = |source| -> [_; 9] { std::array::from_fn(|k| on(k as u16, source)) };
    let mut bench = reading(frame(0, &nine(1)));
    let all: Vec<u16> = (0..9).map(|k| 10 * k).collect();
    all.iter().for_each(|&word| read(&mut bench, 4, word));
    bench.push_frame(frame(0, &nine(0)));
    all[..7].iter().for_each(|&word| read(&mut bench, 4, word));
    assert_eq!(held(&bench).len(), 16, "all are filled");
    assert_eq!(held(&bench)[15], (on(0, 1), 1));
    for (k, word) in (7u16..9).zip([70, 80]) {
        let oldest = held(&bench)[15];
        assert_eq!(oldest, (on(k - 7, 1), 1));
        read(&mut bench, 4, word);
        assert_eq!(held(&bench)[0], (on(k, 0), 2));
        assert!(!held(&bench).contains(&oldest));
    }
    let places = bench.machine.recent.map(|row| row.frame);
    assert_eq!(places, [2, 2, 1, 1, 1, 1, 1, 1, 1, 2, 2, 2, 2, 2, 2, 2]);
}

/// A capability on the k-th of some places.
fn on(k: u16, source: u8) -> reference::record::Capability {
    capability(4, 10 * k, 4, R, source)
}

/// A world with two frames, whose second instruction returns through register
/// 5: both of the first frame's and then both of the second's capabilities were
/// read, of those the first one twice.
fn about_to_return(back: Code) -> Bench {
    let mut bench = reading(frame(0, &[on(0, 1), on(1, 1)]));
    bench.set(0, 1, back);
    bench.machine.pointers[5] = tagged_at(0, 0);
    read(&mut bench, 4, 0);
    read(&mut bench, 4, 10);
    bench.push_frame(frame(0, &[on(2, 1), on(3, 1)]));
    for word in [20, 30, 20] {
        read(&mut bench, 4, word);
    }
    assert_eq!(numbers(&bench), beginning([12, 13, 15, 14]));
    bench
}

#[test]
fn a_return_clears_its_frames_registers() {
    let mut bench = about_to_return(ret(5, 0));
    bench.steps(1);
    assert_eq!(held(&bench), [(on(1, 1), 1), (on(0, 1), 1)]);
    let due = [14, 15, 1, 0, 2, 3, 4, 5, 6, 7, 8, 9, 10, 11, 12, 13];
    assert_eq!(
        numbers(&bench),
        due,
        "the older of the two is replaced first"
    );
}

#[test]
fn a_cleared_register_is_replaced_before_an_older_empty_one() {
    let mut bench = about_to_return(ret(5, 0));
    bench.steps(1);
    bench.machine.frames[0] = frame(0, &[on(0, 1), on(1, 1), on(4, 1), on(5, 1), on(6, 1)]);
    for (word, k) in [(40, 3), (50, 2), (60, 4)] {
        read(&mut bench, 4, word);
        assert_eq!(bench.machine.recent[k].capability, on(word / 10, 1));
    }
}

#[test]
fn a_returns_indirect_word_renews_before_the_clearing() {
    let mut bench = about_to_return(ret(5, 0).indirect());
    bench.set(4, 30, pointer(0, 0));
    bench.machine.pointers[5] = tagged_at(4, 30);
    bench.steps(1);
    let due = [14, 15, 0, 1, 2, 3, 4, 5, 6, 7, 8, 9, 10, 11, 12, 13];
    assert_eq!(
        numbers(&bench),
        due,
        "the word's register was the newer one"
    );
    let mut bench = about_to_return(ret(5, 0).indirect());
    bench.machine.frames[1].capabilities[2] = on(4, 1);
    bench.machine.frames[1].capability_count = 3;
    bench.set(4, 40, pointer(0, 0));
    bench.machine.pointers[5] = tagged_at(4, 40);
    bench.steps(1);
    let due = [14, 15, 1, 0, 2, 3, 4, 5, 6, 7, 8, 9, 10, 11, 12, 13];
    assert_eq!(numbers(&bench), due, "a third was entered and cleared");
    assert_eq!(held(&bench), [(on(1, 1), 1), (on(0, 1), 1)]);
}

#[test]
fn a_return_that_faults_leaves_the_registers() {
    let mut bench = about_to_return(ret(5, 0));
    bench.machine.pointers[5] = tagged_at(0, 1);
    bench.faults(32);
    bench.machine.pointers[5] = tagged_at(0, 0);
    bench.machine.frames[1].domain = 1;
    bench.faults(22);
    assert_eq!(held(&bench).len(), 4);
}

#[test]
fn a_restart_empties_the_registers() {
    let bench = about_to_return(halt());
    let mut record = reference::record_bytes(&bench.machine);
    assert_eq!(reference::host::restart(&mut record), 0);
    let machine = reference::machine_from_bytes(&record).expect("sound");
    assert_eq!(machine.recent, fresh());
}

#[test]
fn a_check_by_the_host_renews_nothing() {
    let bench = about_to_return(halt());
    let record = reference::record_bytes(&bench.machine);
    let index = |word| 40 + u32::from(word);
    for word in [20, 23, 30] {
        assert_eq!(reference::host::check(&record, 0, 1, 4, word), index(word));
    }
    assert_eq!(reference::host::check(&record, 1, 1, 4, 20), 0x10000 + 24);
    assert_eq!(reference::host::check(&record, 0, 1, 4, 0), 0x10000 + 24);
}
