//! Logs of crossings: records, totals, lines, refusals and their order.

use assembler::*;
use compare::logs::{both_log, Output};
use compare::{library, State};
use reference::{printed_log, record_bytes, LOG_BYTES, RECORD_BYTES};
use scenarios::*;
use std::fs;
use std::path::Path;

/// What the bytes of a log are before a call.
const BEFORE: u8 = 0xA5;
/// What the totals are before a call.
const TOTALS: (u16, u16) = (77, 88);

/// What a logged run leaves.
#[derive(Clone, Debug, PartialEq, Eq)]
struct Logged {
    code: u32,
    record: Vec<u8>,
    words: Vec<u32>,
    log: Vec<u8>,
    totals: (u16, u16),
}

impl Logged {
    /// Logs a record and words with a log of some length; by the library too.
    fn new(record: &[u8], words: &[u32], length: usize) -> Logged {
        let mut state = State::new(record, words);
        let (calls, returns) = TOTALS;
        let log = vec![BEFORE; length];
        let mut output = Output {
            log,
            calls,
            returns,
        };
        if library::linked().is_ok() {
            let logged = both_log(&state, &output);
            logged.unwrap_or_else(|difference| panic!("{difference}"));
        }
        let code = output.by_reference(&mut state);
        Logged {
            code,
            record: state.record,
            words: state.words,
            log: output.log,
            totals: (output.calls, output.returns),
        }
    }

    /// Logs the machine of a bench with a log that is long enough.
    fn of(bench: &Bench) -> Logged {
        Logged::new(&record_bytes(&bench.machine), &bench.memory, LOG_BYTES)
    }

    /// The records; all bytes after them must be what they were.
    fn records(&self) -> Vec<[u8; 6]> {
        let used = 6 * usize::from(self.totals.0 + self.totals.1);
        assert!(self.log[used..].iter().all(|&byte| byte == BEFORE));
        let rows = self.log[..used].chunks_exact(6);
        rows.map(|row| row.try_into().expect("six bytes")).collect()
    }
}

/// A calls B, which calls C, `c` at C's gate; both go back.
fn nested(c: &[Code]) -> ImageBuilder {
    let a_code = [epp(A, B, 1), call(B, 0).indirect(), halt()];
    let b_code = [
        spp(A, B, 1),
        epp(A, B, 2),
        call(B, 0).indirect(),
        epp(A, B, 1).indirect(),
        ret(A, 1).indirect(),
    ];
    let a_data = [pointer(2, 0), 0, pointer(0, 2), 0];
    let b_data = [pointer(4, 0), 0, 0, pointer(2, 3), 0];
    subsystems([&a_code, &b_code, c], [&a_data, &b_data, &[0]])
}

/// A file of the stored images.
fn stored(file: &str) -> Vec<u8> {
    let images = Path::new(env!("CARGO_MANIFEST_DIR")).join("../images");
    fs::read(images.join(file)).unwrap_or_else(|error| panic!("{file}: {error}"))
}

#[test]
fn stored_images_print_their_lines_and_logs() {
    for name in [
        "dead_gate",
        "dead_gate_and_one",
        "far_gate",
        "fault",
        "gate",
        "longest",
        "longest_and_one",
        "longest_log",
        "refused",
        "spent",
        "wrong_length",
    ] {
        let image = stored(&format!("{name}.img"));
        let [result, log] = ["out", "log"].map(|ending| stored(&format!("{name}.{ending}")));
        assert_eq!(printed(&image).as_bytes(), result, "{name}");
        assert_eq!(printed_log(&image).as_bytes(), log, "{name}");
    }
}

#[test]
fn the_dead_gate_that_is_stored_lacks_e_alone() {
    let gate = stored("gate.img");
    let mut dead = stored("dead_gate.img");
    let places = 0..gate.len();
    let changed: Vec<usize> = places.filter(|&at| dead[at] != gate[at]).collect();
    let [rights] = changed[..] else {
        panic!("one byte, not {changed:?}");
    };
    assert_eq!((gate[rights], dead[rights]), (E, R | W | G));
    dead.push(0);
    assert!(dead == stored("dead_gate_and_one.img"), "a byte more");
}

#[test]
fn nested_calls_come_back_in_turn() {
    let image = nested(&[ret(A, 1).indirect()]);
    let lines = "call 0 1 2 0\ncall 1 2 4 0\nreturn 2 1 2 3\nreturn 1 0 0 2\n";
    assert_eq!(
        printed_log(&image.bytes()),
        format!("{lines}calls 2 returns 2\n")
    );
    let logged = Logged::of(&Bench::new(&image));
    assert_eq!((logged.code, logged.totals), (0x0000_0009, (2, 2)));
    let due = [
        [0, 0, 1, 2, 0, 0],
        [0, 1, 2, 4, 0, 0],
        [1, 2, 1, 2, 3, 0],
        [1, 1, 0, 0, 2, 0],
    ];
    assert_eq!(logged.records(), due);
}

#[test]
fn crossings_before_a_fault_are_logged_and_the_ending_is_not() {
    let image = nested(&[load(B, 9)]);
    let lines = "call 0 1 2 0\ncall 1 2 4 0\ncalls 2 returns 0\n";
    assert_eq!(printed_log(&image.bytes()), lines);
    let logged = Logged::of(&Bench::new(&image));
    assert_eq!(logged.code >> 24, 1, "faulted");
    assert_eq!(logged.totals, (2, 0));
    assert_eq!(
        logged.record[reference::bytes::DEPTH],
        2,
        "calls less returns"
    );
}

#[test]
fn a_crossing_that_faults_has_no_record() {
    let image = nested(&[epp(S, B, 0), ret(A, 1).indirect()]);
    let lines = "call 0 1 2 0\ncall 1 2 4 0\ncalls 2 returns 0\n";
    assert_eq!(printed_log(&image.bytes()), lines);
    let mut image = nested(&[halt()]);
    image.rights(1, 4, 0);
    let lines = "call 0 1 2 0\ncalls 1 returns 0\n";
    assert_eq!(printed_log(&image.bytes()), lines);
}

#[test]
fn transfers_inside_a_domain_are_no_crossings() {
    let code = [
        call(B, 0).indirect(),
        ret(B, 1).indirect(),
        jump(B, 2).indirect(),
        halt(),
    ];
    let data = [pointer(0, 1), pointer(0, 2), pointer(0, 3)];
    let image = subsystems([&code, &[halt()], &[halt()]], [&data, &[0], &[0]]);
    assert_eq!(printed_log(&image.bytes()), "calls 0 returns 0\n");
}

#[test]
fn a_gate_into_its_own_callers_domain_is_dead_or_no_crossing() {
    let mut image = nested(&[ret(A, 1).indirect()]);
    image.gates(4, 1, 1).rights(1, 4, G);
    assert_eq!(printed(&image.bytes()), "refused 10\n");
    assert_eq!(printed_log(&image.bytes()), "refused 10\n");
    image.rights(1, 4, E | G);
    let mut bench = Bench::new(&image);
    bench.steps(5);
    assert_eq!((bench.machine.domain, bench.machine.frame_count), (1, 1));
    let lines = "call 0 1 2 0\nreturn 1 0 0 2\ncalls 1 returns 1\n";
    assert_eq!(printed_log(&image.bytes()), lines);
}

#[test]
fn a_log_in_the_middle_of_a_run_goes_on_from_there() {
    let mut bench = Bench::new(&nested(&[ret(A, 1).indirect()]));
    bench.steps(5);
    let logged = Logged::of(&bench);
    assert_eq!(logged.totals, (0, 2));
    assert_eq!(logged.records(), [[1, 2, 1, 2, 3, 0], [1, 1, 0, 0, 2, 0]]);
    let again = Logged::new(&logged.record, &logged.words, LOG_BYTES + 5);
    assert_eq!((again.code, again.totals), (0x0000_0001, (0, 0)));
    assert_eq!(again.log, [BEFORE; LOG_BYTES + 5]);
}

/// A calls B, B's only word calls C, and C's only word goes back to B's call:
/// each instruction is a crossing.
fn crossings_alone() -> ImageBuilder {
    let list = [0, pointer(2, 0), 0];
    let start = list.into_iter().chain([call(B, 0).indirect().word()]);
    let start: Vec<Code> = start.map(Code).collect();
    let gates: [&[Code]; 2] = [&[call(B, 0).indirect()], &[ret(A, 1).indirect()]];
    let data = [[pointer(2, 0)], [pointer(4, 0)], [0]];
    let mut image = subsystems([&start, gates[0], gates[1]], [&data[0], &data[1], &data[2]]);
    image.rights(1, 0, R).start(0, pointer(0, 3));
    image
}

#[test]
fn a_thousand_crossings_fill_the_log() {
    let image = crossings_alone();
    let logged = Logged::of(&Bench::new(&image));
    assert_eq!((logged.code, logged.totals), (0x0200_03E8, (501, 499)));
    let records = logged.records();
    assert_eq!(records.len(), 1000);
    assert_eq!(records[0], [0, 0, 1, 2, 0, 0]);
    for turn in records[1..].chunks(2) {
        assert_eq!(turn[0], [0, 1, 2, 4, 0, 0]);
        assert!(turn[1..].iter().all(|row| *row == [1, 2, 1, 2, 0, 0]));
    }
    assert!(
        image.bytes() == stored("longest_log.img"),
        "the stored image"
    );
    let printed = printed_log(&image.bytes());
    assert_eq!(printed.lines().count(), 1001);
    assert!(printed.ends_with("\ncalls 501 returns 499\n"));
}

/// Domain 7 calls domain 0 at the last word of segment 15 and at word 10, from
/// far into segment 14.
fn far_gate() -> ImageBuilder {
    let mut image = ImageBuilder::new();
    let (first, back) = (997, [pointer(14, 999), pointer(14, 1001)]);
    let lists = back.map(|back| ArgumentList::new(back).words());
    let data = [&[pointer(15, 4095), pointer(15, 10)], &lists.concat()[..]].concat();
    let calls = [0, 1].map(|k| [epp(A, B, 2 + 3 * k), call(B, k).indirect()]);
    let code = [vec![halt(); first], calls.concat(), vec![halt()]].concat();
    let mut gates = vec![halt(); 4096];
    (gates[10], gates[11]) = (lit(42), ret(A, 1).indirect());
    gates[4095] = ret(A, 1).indirect();
    for _ in 0..13 {
        image.segment([0u32]);
    }
    image.segment(data);
    image.segment(code);
    image.segment(gates);
    image.domain(0, &[(15, E)]);
    for _ in 1..7 {
        image.domain(0, &[]);
    }
    image.domain(13, &[(13, R), (14, E), (15, G)]);
    image.gates(15, 4096, 0).start(7, pointer(14, first as u32));
    image
}

#[test]
fn numbers_of_a_line_have_up_to_four_digits() {
    let image = far_gate();
    let logged = Logged::of(&Bench::new(&image));
    let due = [
        [0, 7, 0, 15, 255, 15],
        [1, 0, 7, 14, 231, 3],
        [0, 7, 0, 15, 10, 0],
        [1, 0, 7, 14, 233, 3],
    ];
    assert_eq!(logged.records(), due);
    assert!(image.bytes() == stored("far_gate.img"), "the stored image");
    let lines = "call 7 0 15 4095\nreturn 0 7 14 999\ncall 7 0 15 10\nreturn 0 7 14 1001\n";
    let due = format!("{lines}calls 2 returns 2\n");
    assert_eq!(printed_log(&image.bytes()), due);
}

#[test]
fn refusals_come_in_order_and_leave_all() {
    let bench = Bench::new(&nested(&[ret(A, 1).indirect()]));
    let sound = record_bytes(&bench.machine);
    let mut unsound = sound.clone();
    unsound[221] = 9;
    let (words, few) = (&bench.memory[..], &bench.memory[..8191]);
    for (number, record, words, length) in [
        (8, &unsound[..RECORD_BYTES - 1], few, 0),
        (8, &sound[..RECORD_BYTES - 1], words, LOG_BYTES),
        (9, &unsound[..], few, 0),
        (9, &unsound[..], words, LOG_BYTES),
        (7, &sound[..], few, LOG_BYTES - 1),
        (7, &sound[..], few, LOG_BYTES),
        (8, &sound[..], words, LOG_BYTES - 1),
        (8, &sound[..], words, 0),
    ] {
        let left = Logged::new(record, words, length);
        let due = Logged {
            code: 0x0400_0000 | number << 16,
            record: record.to_vec(),
            words: words.to_vec(),
            log: vec![BEFORE; length],
            totals: TOTALS,
        };
        assert!(left == due, "{number} with a log of {length} bytes");
    }
}
