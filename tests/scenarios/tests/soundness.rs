//! Which records are sound, field by field, and that every call refuses the
//! others with 9 and leaves all as it was.

use assembler::{E, G, R, W};
use compare::library;
use reference::{host, is_sound, Machine, Refusal};
use scenarios::*;

/// Where a record has the number of frames in use, its frames and its
/// registers.
const DEPTH_AT: usize = 262;
const FRAMES_AT: usize = 263;
const REGISTERS_AT: usize = 919;

/// A sound record with two frames in use.
fn sound() -> Machine {
    let mut bench = world(&[]);
    bench.push_frame(frame(0, &[capability(3, 4, 4, R, 1)]));
    bench.push_frame(frame(
        1,
        &[capability(3, 4, 4, W, 1), capability(4, 0, 3, R, 0)],
    ));
    bench.machine
}

/// Makes one change and says whether the record is then sound.
fn after(change: impl FnOnce(&mut Machine)) -> bool {
    let mut machine = sound();
    assert!(is_sound(&machine));
    change(&mut machine);
    is_sound(&machine)
}

#[test]
fn counts_and_unused_rows() {
    assert!(!after(|m| m.segment_count = 0));
    assert!(!after(|m| m.segment_count = 4), "row 4 is then unused");
    assert!(!after(|m| m.segment_count = 6), "row 5 has no words");
    assert!(!after(|m| m.segment_count = 17));
    assert!(!after(|m| m.segment_count = 255));
    assert!(!after(|m| m.domain_count = 0));
    assert!(!after(|m| m.domain_count = 1));
    assert!(after(|m| m.domain_count = 3), "a row of zeros is a domain");
    assert!(!after(|m| m.domain_count = 9));
    assert!(!after(|m| m.domain_count = 255));
    assert!(!after(|m| m.segments[5].length = 1));
    assert!(!after(|m| m.segments[15].gate_count = 1));
    assert!(!after(|m| m.segments[15].gate_domain = 1));
    assert!(!after(|m| m.domains[2].stack_segment = 1));
    assert!(!after(|m| m.domains[7].rights[15] = 1));
}

#[test]
fn segments() {
    assert!(!after(|m| m.segments[1].length = 0));
    assert!(after(|m| m.segments[1].length = 4066), "8,192 in all");
    assert!(!after(|m| m.segments[1].length = 4067), "8,193 in all");
    assert!(!after(|m| m.segments[4].length = 4097));
    assert!(after(|m| m.segments[2].gate_count = 10));
    assert!(!after(|m| m.segments[2].gate_count = 11));
    assert!(!after(|m| m.segments[1].gate_domain = 2), "no gates, yet");
    assert!(!after(|m| m.segments[2].gate_domain = 200));
}

#[test]
fn gates() {
    for rights in 0..16 {
        let executes = rights & E != 0;
        assert_eq!(after(|m| m.domains[1].rights[2] = rights), executes);
        let without_gates = |m: &mut Machine| {
            m.domains[1].rights[2] = rights;
            m.segments[2].gate_count = 0;
        };
        assert!(after(without_gates), "no gates, rights {rights}");
    }
    assert!(!after(|m| m.segments[2].gate_domain = 0), "G and no E");
    let another_executes = |m: &mut Machine| {
        m.domains[1].rights[2] = R | W | G;
        m.domains[0].rights[2] = 15;
    };
    assert!(!after(another_executes), "the executing domain has E");
    for segment in [0, 1, 3, 4] {
        let gates = |m: &mut Machine, domain: u8, count| {
            m.segments[segment].gate_count = count;
            m.segments[segment].gate_domain = domain;
        };
        let executes = segment == 0;
        assert_eq!(after(|m| gates(m, 0, 1)), executes, "segment {segment}");
        assert!(!after(|m| gates(m, 1, 1)), "segment {segment}");
        assert!(after(|m| gates(m, 1, 0)), "segment {segment}");
        let with_execute = |m: &mut Machine| {
            gates(m, 1, m.segments[segment].length);
            m.domains[1].rights[segment] |= E;
        };
        assert!(after(with_execute), "segment {segment}");
    }
    assert!(!after(|m| m.segments[4].gate_count = 256), "256 gates");
}

#[test]
fn domains() {
    assert!(after(|m| m.domains[1].stack_segment = 4));
    assert!(!after(|m| m.domains[1].stack_segment = 5));
    assert!(after(|m| m.domains[1].rights[0] = 15));
    assert!(!after(|m| m.domains[1].rights[0] = 16));
    assert!(!after(|m| m.domains[1].rights[5] = 1), "absent segment");
}

#[test]
fn registers() {
    assert!(after(|m| m.a = u32::MAX));
    assert!(after(|m| m.pointers[2] = tagged_at(15, 4095)), "any b");
    assert!(!after(|m| m.pointers[7].segment = 16));
    assert!(!after(|m| m.pointers[0].word = 4096));
    assert!(after(|m| m.location.segment = 15), "absent segment");
    assert!(!after(|m| m.location.segment = 16));
    assert!(after(|m| m.location.word = 4096));
    assert!(!after(|m| m.location.word = 4097));
    assert!(after(|m| m.domain = 1));
    assert!(!after(|m| m.domain = 2));
    assert!(!after(|m| m.start_domain = 2));
    assert!(!after(|m| m.start.segment = 5));
    assert!(after(|m| m.start.word = 4095), "need not exist");
    assert!(!after(|m| m.start.word = 4096));
}

#[test]
fn a_location_in_an_absent_segment_faults_at_the_fetch() {
    let mut bench = world(&[]);
    bench.machine.location.segment = 15;
    bench.faults(21);
}

#[test]
fn frames() {
    assert!(!after(|m| m.frame_count = 1), "the second row isn't zero");
    assert!(
        !after(|m| m.frame_count = 3),
        "a zero row has no capability"
    );
    assert!(!after(|m| m.frame_count = 255));
    assert!(!after(|m| m.frames[0].capability_count = 0));
    assert!(!after(|m| m.frames[1].capability_count = 1));
    assert!(!after(|m| m.frames[1].capability_count = 3));
    assert!(!after(|m| m.frames[1].capability_count = 255));
    assert!(!after(|m| m.frames[0].domain = 2));
    assert!(!after(|m| m.frames[0].return_location.tag = true));
    assert!(after(
        |m| m.frames[0].return_location = untagged_at(15, 4095)
    ));
    assert!(!after(|m| m.frames[0].return_location.segment = 16));
    assert!(!after(|m| m.frames[0].return_location.word = 4096));
    assert!(after(|m| m.frames[0].s = tagged_at(15, 4095)));
    assert!(!after(|m| m.frames[0].s.segment = 16));
    assert!(!after(|m| m.frames[0].s.word = 4096));
    assert!(!after(|m| m.frames[7].domain = 1), "a free frame");
    assert!(!after(|m| m.frames[2].s.tag = true), "a free frame");
    assert!(!after(|m| m.frames[0].capabilities[8].source = 1));
    let nine = |m: &mut Machine| m.frames[1] = frame(1, &[capability(3, 4, 4, W, 1); 9]);
    assert!(after(nine));
}

#[test]
fn capabilities() {
    let with = |segment, word, length, flags, source| {
        let row = capability(segment, word, length, flags, source);
        after(|m| m.frames[0].capabilities[0] = row)
    };
    assert!(!with(3, 4, 4, 0, 1), "no flag");
    assert!(!with(3, 4, 0, R, 1), "no word");
    assert!(with(3, 0, 4096, R | W, 1), "need not exist");
    assert!(!with(3, 0, 4097, R, 1));
    assert!(!with(3, 1, 4096, R, 1));
    assert!(with(3, 4095, 1, R, 1));
    assert!(!with(3, 4096, 1, R, 1));
    assert!(!with(3, 65_535, 65_535, R, 1));
    assert!(with(15, 4, 4, R, 1), "absent segment");
    assert!(!with(16, 4, 4, R, 1));
    assert!(!with(99, 4, 4, R, 1));
    assert!(!with(3, 4, 4, R, 2), "absent source");
    assert!(with(3, 4, 4, W, 1), "the last need not be the list");
}

/// Makes one change to a sound record of which registers 3 and 7 hold the first
/// frame's capability and the second one's last, and says whether it is sound.
fn after_filled(change: impl FnOnce(&mut Machine)) -> bool {
    after(|m| {
        fill(m);
        assert!(is_sound(m));
        change(m);
    })
}

fn fill(m: &mut Machine) {
    hold(m, 3, capability(3, 4, 4, R, 1), 1);
    hold(m, 7, capability(4, 0, 3, R, 0), 2);
}

/// Lets a register hold a capability of a frame.
fn hold(m: &mut Machine, k: usize, row: reference::record::Capability, frame: u8) {
    (m.recent[k].capability, m.recent[k].frame) = (row, frame);
}

#[test]
fn recency_numbers() {
    assert!(!after_filled(|m| m.recent[3].recency = 4), "one twice");
    assert!(!after_filled(|m| m.recent[15].recency = 0), "one twice");
    assert!(!after_filled(|m| m.recent[15].recency = 16));
    assert!(!after_filled(|m| m.recent[0].recency = 16));
    assert!(!after_filled(|m| m.recent[7].recency = 255));
    let swapped = |m: &mut Machine| (m.recent[3].recency, m.recent[9].recency) = (9, 3);
    assert!(after_filled(swapped));
    let turned = |m: &mut Machine| m.recent.iter_mut().for_each(|row| row.recency ^= 15);
    assert!(after_filled(turned), "any order");
    assert!(!after(|m| m.recent = Default::default()), "all are 0");
}

#[test]
fn filled_registers() {
    let (first, last) = (capability(3, 4, 4, R, 1), capability(4, 0, 3, R, 0));
    for (row, frame, sound) in [
        (first, 1, true),
        (first, 2, false),
        (last, 2, true),
        (last, 1, false),
        (first, 3, false),
        (last, 3, false),
        (first, 8, false),
        (first, 9, false),
        (first, 255, false),
        (capability(3, 4, 4, W, 1), 2, true),
        (capability(3, 4, 4, W, 1), 1, false),
        (capability(3, 4, 3, R, 1), 1, false),
        (capability(3, 5, 4, R, 1), 1, false),
        (capability(2, 4, 4, R, 1), 1, false),
        (capability(3, 4, 4, R, 0), 1, false),
        (capability(3, 4, 4, R | W, 1), 1, false),
        (Default::default(), 1, false),
        (first, 0, false),
    ] {
        let sound_then = after_filled(|m| hold(m, 5, row, frame));
        assert_eq!(sound_then, sound, "{row:?} of frame {frame}");
    }
    assert!(after_filled(|m| hold(m, 0, first, 1)), "the same twice");
}

#[test]
fn a_filled_register_of_a_frame_given_up() {
    let give_up = |m: &mut Machine| {
        m.frames[1] = Default::default();
        m.frame_count = 1;
    };
    assert!(!after_filled(give_up));
    assert!(after_filled(|m| {
        give_up(m);
        hold(m, 7, Default::default(), 0);
    }));
}

#[test]
fn registers_hold_what_may_be_entered() {
    let held = |rows: &[reference::record::Capability], k: usize| {
        after(|m| {
            m.frames[1] = frame(1, rows);
            hold(m, 5, rows[k], 2);
        })
    };
    let [own, other] = [0, 1].map(|source| capability(4, 2, 4, R, source));
    assert!(held(&[own, other], 0));
    assert!(!held(&[own, other], 1));
    assert!(
        !held(&[capability(4, 5, 1, W, 0), other], 1),
        "flags don't count"
    );
    assert!(
        held(&[capability(4, 6, 1, R, 0), other], 1),
        "no word shared"
    );
    assert!(
        held(&[capability(4, 0, 2, R, 0), other], 1),
        "no word shared"
    );
    assert!(
        held(&[capability(3, 2, 4, R, 0), other], 1),
        "no word shared"
    );
    assert!(
        held(&[capability(4, 5, 1, R, 1), other], 1),
        "of one source"
    );
    assert!(held(&[own, other, own], 2), "by its first place");
    assert!(!held(&[own, other, other], 2));
    let eight = [capability(3, 0, 1, R, 0); 8];
    let rows: Vec<_> = eight.into_iter().chain([other]).collect();
    assert!(held(&rows, 8));
}

#[test]
fn empty_registers() {
    assert!(!after_filled(|m| m.recent[0].capability.word = 1));
    assert!(!after_filled(|m| m.recent[15].capability.length = 1));
    assert!(!after_filled(|m| m.recent[1].capability.segment = 1));
    assert!(!after_filled(|m| m.recent[2].capability.source = 1));
    assert!(!after_filled(|m| m.recent[4].capability.read = true));
    assert!(!after_filled(|m| m.recent[4].capability.write = true));
    assert!(!after_filled(|m| m.recent[3].frame = 0), "not zero");
    assert!(!after_filled(|m| m.recent[4].frame = 1), "zero");
}

#[test]
fn every_call_refuses_an_unsound_record() {
    let mut machine = sound();
    machine.domain = 200;
    machine.location.segment = 99;
    machine.frame_count = 255;
    let before = machine.clone();
    let mut memory = vec![7; 8192];
    let mut output = vec![1; 40_000];
    let step = reference::step(&mut machine, &mut memory);
    assert_eq!((step.number, step.halted), (9, false));
    let run = reference::run(&mut machine, &mut memory, 0);
    assert_eq!(run, Err(Refusal::NotSound));
    let stretch = reference::stretch(&mut machine, &mut memory, 1);
    assert_eq!(stretch, Err(Refusal::NotSound));
    let written = reference::write_image(&machine, &memory, &mut output);
    assert_eq!(written, Err(Refusal::NotSound));
    assert_eq!(reference::segment_number(&machine, &memory, 0), 9);
    assert!(reference::segment(&machine, &memory, 0).is_empty());
    assert_eq!(machine, before);
    assert_eq!(memory, vec![7; 8192]);
    assert_eq!(output, vec![1; 40_000]);
}

/// A logged run: record, words, log, calls and returns.
type Log = fn(&mut [u8], &mut [u32], &mut [u8], &mut u16, &mut u16) -> u32;

/// The calls on a record as bytes; those of the reference or the library.
struct Calls {
    run: fn(&mut [u8], &mut [u32], u16) -> u32,
    stretch: fn(&mut [u8], &mut [u32], u16) -> u32,
    step: fn(&mut [u8], &mut [u32]) -> u16,
    write: fn(&[u8], &[u32], &mut [u8]) -> u32,
    segment: fn(&[u8], &[u32], u8, &mut u16, &mut u16) -> u8,
    check: fn(&[u8], u8, u8, u8, u16) -> u32,
    restart: fn(&mut [u8]) -> u8,
    log: Log,
}

const BY_REFERENCE: Calls = Calls {
    run: host::run,
    stretch: host::stretch,
    step: host::step,
    write: host::write,
    segment: host::segment,
    check: host::check,
    restart: host::restart,
    log: host::log,
};

const BY_LIBRARY: Calls = Calls {
    run: library::run,
    stretch: library::stretch,
    step: library::step,
    write: library::write,
    segment: library::segment,
    check: library::check,
    restart: library::restart,
    log: library::log,
};

/// Makes each call on a record that is not sound: 9, and all stays. Few words
/// and outputs that are too short change nothing.
fn all_give_nine(calls: &Calls, record: &[u8], words: &[u32]) {
    let before = (record.to_vec(), words.to_vec());
    let (mut record, mut words) = before.clone();
    for limit in [0, 1, 1000] {
        assert_eq!((calls.run)(&mut record, &mut words, limit), 0x0409_0000);
        assert_eq!((calls.stretch)(&mut record, &mut words, limit), 0x0409_0000);
    }
    assert_eq!((calls.step)(&mut record, &mut words), 9);
    assert_eq!((calls.restart)(&mut record), 9);
    let (mut output, mut first, mut count) = ([3; 40_000], 5, 6);
    for length in [0, 40_000] {
        let output = &mut output[..length];
        assert_eq!((calls.write)(&record, &words, output), 0x1_0009);
        let logged = (calls.log)(&mut record, &mut words, output, &mut first, &mut count);
        assert_eq!(logged, 0x0409_0000);
    }
    for segment in [0, 2, 16, 255] {
        let number = (calls.segment)(&record, &words, segment, &mut first, &mut count);
        assert_eq!(number, 9, "segment {segment}");
    }
    for (write, tag) in [(0, 0), (1, 0), (0, 1), (1, 1)] {
        assert_eq!((calls.check)(&record, write, tag, 4, 0), 0x1_0009);
    }
    assert_eq!((first, count, output), (5, 6, [3; 40_000]));
    assert_eq!((record, words), before);
}

#[test]
fn every_call_refuses_a_dead_gate() {
    let changes: [fn(&mut Machine); 4] = [
        |m| m.domains[1].rights[2] = R | W | G,
        |m| m.segments[2].gate_domain = 0,
        |m| m.segments[4].gate_count = 4096,
        |m| (m.domain, m.domains[1].rights[2]) = (1, 0),
    ];
    for change in changes {
        let mut machine = sound();
        change(&mut machine);
        let record = reference::record_bytes(&machine);
        for count in [8192, 8191, 0] {
            let words = vec![7; count];
            all_give_nine(&BY_REFERENCE, &record, &words);
            if library::linked().is_ok() {
                all_give_nine(&BY_LIBRARY, &record, &words);
            }
        }
    }
}

#[test]
fn every_call_refuses_registers_that_are_not_sound() {
    let changes: [fn(&mut Machine); 6] = [
        |m| m.recent[3].recency = 4,
        |m| m.recent[15].recency = 16,
        |m| hold(m, 0, capability(3, 4, 4, R, 1), 3),
        |m| hold(m, 0, capability(3, 4, 4, R, 1), 2),
        |m| {
            m.frames[1].capabilities[0] = capability(4, 2, 1, W, 1);
            hold(m, 0, capability(4, 0, 3, R, 0), 2);
        },
        |m| m.recent[0].capability.source = 1,
    ];
    for change in changes {
        let mut machine = sound();
        fill(&mut machine);
        change(&mut machine);
        let record = reference::record_bytes(&machine);
        for count in [8192, 0] {
            let words = vec![7; count];
            all_give_nine(&BY_REFERENCE, &record, &words);
            if library::linked().is_ok() {
                all_give_nine(&BY_LIBRARY, &record, &words);
            }
        }
    }
}

#[test]
fn the_checks_answer_for_any_record() {
    let mut machine = sound();
    machine.segment_count = 255;
    machine.domain_count = 255;
    machine.domain = 200;
    machine.frame_count = 255;
    for segment in 0..=255 {
        for word in [0, 4095, 65_535] {
            assert!(!reference::may_see(&machine, segment, word));
            assert!(!reference::could_write(&machine, segment, word));
        }
    }
    machine.frame_count = 2;
    machine.frames[1].capability_count = 255;
    assert!(reference::could_write(&machine, 3, 4));
}

/// Bytes with one of them changed.
fn changed(bytes: &[u8], place: usize, byte: u8) -> Vec<u8> {
    let mut bytes = bytes.to_vec();
    bytes[place] = byte;
    bytes
}

#[test]
fn the_parts_of_a_record_as_bytes() {
    let mut machine = sound();
    machine.a = 0x0403_0201;
    machine.location.word = 4096;
    machine.location.segment = 15;
    machine.domain = 1;
    machine.start.word = 0x0123;
    machine.start.segment = 4;
    machine.start_domain = 1;
    machine.pointers[7] = tagged_at(9, 0x0ABC);
    machine.frames[1].s = tagged_at(2, 3);
    machine.frames[1].return_location = untagged_at(4, 0x0567);
    fill(&mut machine);
    let bytes = reference::record_bytes(&machine);
    let part = |from: usize, expected: &[u8]| {
        assert_eq!(&bytes[from..from + expected.len()], expected, "from {from}");
    };
    assert_eq!(bytes.len(), 1079);
    part(0, &[10, 0, 10, 0, 10, 0, 10, 0, 0, 16, 0, 0]);
    part(32, &[0, 0, 0, 0, 2, 0, 0, 0]);
    part(64, &[0x23, 0x01, 4, 1]);
    part(68, &[0, 0, 1, 0, 0, 0]);
    part(84, &[1, 3, 0, 0, 0, 0, 0, 0]);
    part(92, &[5, 3, 8, 0, 3, 0]);
    part(92 + 16, &[0, 0, 5, 3, 3, 0]);
    part(220, &[5, 2]);
    part(222, &[1, 2, 3, 4, 0, 16, 15, 1]);
    part(230, &[0; 8]);
    part(238, &[0, 0, 1, 0]);
    part(258, &[0xBC, 0x0A, 9, 1]);
    let second = FRAMES_AT + 82;
    part(FRAMES_AT, &[1, 4, 0, 4, 0, 3, 1, 1, 0, 0, 0]);
    part(
        second,
        &[2, 4, 0, 4, 0, 3, 1, 0, 1, 0, 0, 3, 0, 4, 0, 1, 0, 0],
    );
    part(second + 73, &[3, 0, 2, 1, 0x67, 0x05, 4, 0, 1]);
    part(second + 82, &[0; 6 * 82]);
    for k in [0, 1, 2, 4, 5, 6, 8, 9, 10, 11, 12, 13, 14, 15] {
        let row = REGISTERS_AT + 10 * k;
        part(row, &[0, 0, 0, 0, 0, 0, 0, 0, 0, k as u8]);
    }
    part(REGISTERS_AT + 30, &[4, 0, 4, 0, 3, 1, 1, 0, 1, 3]);
    part(REGISTERS_AT + 70, &[0, 0, 3, 0, 4, 0, 1, 0, 2, 7]);
    part(DEPTH_AT, &[2]);
    assert_eq!(reference::machine_from_bytes(&bytes), Ok(machine));
}

#[test]
fn bytes_are_a_record_or_refused() {
    let mut machine = sound();
    fill(&mut machine);
    let bytes = reference::record_bytes(&machine);
    let read = |bytes: &[u8]| reference::machine_from_bytes(bytes);
    assert_eq!(read(&bytes[..919]), Err(Refusal::ShortOutput));
    assert_eq!(read(&bytes[..1078]), Err(Refusal::ShortOutput));
    assert_eq!(read(&[]), Err(Refusal::ShortOutput));
    let longer = [&bytes[..], &[0xEE; 3]].concat();
    assert_eq!(read(&longer), Ok(machine), "bytes after it don't matter");
    for (place, byte) in [
        (233, 2),
        (233, 255),
        (FRAMES_AT + 7, 2),
        (FRAMES_AT + 9, 1),
        (FRAMES_AT + 82 + 81, 2),
        (FRAMES_AT + 2 * 82, 1),
        (FRAMES_AT + 8 * 82 - 1, 1),
        (DEPTH_AT, 9),
        (DEPTH_AT, 1),
        (FRAMES_AT, 0),
        (FRAMES_AT, 10),
        (REGISTERS_AT, 1),
        (REGISTERS_AT + 9, 1),
        (REGISTERS_AT + 9, 16),
        (REGISTERS_AT + 36, 2),
        (REGISTERS_AT + 37, 2),
        (REGISTERS_AT + 38, 2),
        (REGISTERS_AT + 38, 0),
        (REGISTERS_AT + 158, 1),
        (REGISTERS_AT + 159, 14),
        (31, 1),
        (219, 1),
        (220, 17),
    ] {
        let spoiled = read(&changed(&bytes, place, byte));
        assert_eq!(spoiled, Err(Refusal::NotSound), "byte {place} as {byte}");
    }
}
