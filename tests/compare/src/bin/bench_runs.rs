//! `bench_runs`: runs loops with the proved library and with the
//! reference, in turns, and prints the best CPU time of each.
//!
//! `plain` has twelve instructions, among them a reference through the sixth
//! capability of the live frame; `calls` has eight, among them a call through a
//! gate with two arguments and a return across domains. `untagged` is plain
//! without that reference, and in `reread` four of five instructions have it.
//! All keep the record as bytes, and are timed in long runs; plain and calls
//! also in slices of 100 instructions, in runs of no instruction, which decode
//! and encode the record alone, and in runs of 1,000 instructions with a log.
//! An argument asks for the long runs of one loop, or for `slices`, with all
//! tables of plain and calls.

use assembler::*;
use compare::{cpu_time, library, State};
use reference::{host, LOG_BYTES, MEMORY_WORDS, RECORD_BYTES};
use std::hint::black_box;

/// Rounds, of which the best counts.
const ROUNDS: usize = 9;
/// Calls in a round, each of LIMIT instructions: more than 20 million in all.
const CALLS: usize = 306;
const LIMIT: u16 = 65_535;
/// Slices in a round, and instructions in each.
const SLICES: usize = 20_000;
const SLICE: u16 = 100;
/// Logs in a round, and the instructions that each has.
const LOGS: usize = 2_000;
const LOG_LIMIT: u16 = 1_000;
/// Long runs beside them, which take about as long.
const LONG: usize = 30;

/// Domain 0 with code in segment 0 and data in 1, domain 1 in 2 and 3; one
/// gate, at word 0 of segment 2.
fn two_domains(caller: &Program, data: &Program, called: &Program, own: &Program) -> Vec<u8> {
    let mut image = ImageBuilder::new();
    image.segment(caller.words().to_vec());
    image.segment(data.words().to_vec());
    image.segment(called.words().to_vec());
    image.segment(own.words().to_vec());
    image.domain(1, &[(0, E), (1, R + W), (2, G)]);
    image.domain(3, &[(2, E), (3, R + W)]);
    image.gates(2, 1, 1).start(0, pointer(0, 0));
    image.bytes()
}

/// Data of the caller: a pointer to the gate, one to its own loop, a number,
/// and at word 8 the list.
fn caller_data(loop_start: u32, list: ArgumentList) -> Program {
    let mut data = Program::new();
    data.block([pointer(2, 0), pointer(0, loop_start), 1, 0, 0, 0, 0, 0]);
    data.block(list.words());
    data.block([7; 16]);
    data
}

/// A loop of the called domain, which has a caller's list of six arguments:
/// pointer register 4 points to the sixth, 5 to the loop itself.
fn called_loop(codes: &[Code]) -> Vec<u8> {
    let mut caller = Program::new();
    caller.put(epp(A, B, 8));
    caller.put(epp(3, B, 0).indirect());
    caller.put(call(3, 0));
    let list = (0..6).fold(ArgumentList::new(pointer(0, 3)), |list, k| {
        list.argument(pointer(1, 24 + k), 1, R)
    });
    let mut called = Program::new();
    called.put(epp(4, A, 13).indirect());
    called.put(epp(5, B, 4).indirect());
    for &code in codes {
        called.put(code);
    }
    let mut own = Program::new();
    own.block([1, 2, pointer(3, 8), 0, pointer(2, 2), 0, 0, 0, 9]);
    two_domains(&caller, &caller_data(0, list), &called, &own)
}

/// Twelve instructions, with the eleventh as given.
fn loop_of_twelve(eleventh: Code) -> Vec<u8> {
    called_loop(&[
        load(B, 0),
        add(B, 1),
        store(B, 0),
        epp(6, B, 2).indirect(),
        load(6, 0),
        sub(B, 1),
        spp(6, B, 3),
        lit(5),
        jz(5, 0),
        jm(5, 0),
        eleventh,
        jump(5, 0),
    ])
}

/// One instruction in twelve goes through an argument.
fn plain_loop() -> Vec<u8> {
    loop_of_twelve(load(4, 0))
}

/// No instruction does.
fn untagged_loop() -> Vec<u8> {
    loop_of_twelve(load(B, 1))
}

/// Four in five do, one of them also through the list.
fn reread_loop() -> Vec<u8> {
    called_loop(&[
        load(4, 0),
        add(4, 0),
        sub(4, 0),
        load(A, 13).indirect(),
        jump(5, 0),
    ])
}

fn call_loop() -> Vec<u8> {
    let mut caller = Program::new();
    caller.put(epp(3, B, 0).indirect());
    caller.put(epp(4, B, 1).indirect());
    for code in [epp(A, B, 8), call(3, 0), load(B, 2), jump(4, 0)] {
        caller.put(code);
    }
    let list = ArgumentList::new(pointer(0, 4))
        .argument(pointer(1, 16), 1, R)
        .argument(pointer(1, 17), 1, W);
    let mut called = Program::new();
    for code in [
        load(A, 3).indirect(),
        add(B, 0),
        store(A, 5).indirect(),
        ret(A, 1).indirect(),
    ] {
        called.put(code);
    }
    let mut own = Program::new();
    own.block([3]);
    two_domains(&caller, &caller_data(2, list), &called, &own)
}

/// A record and its words in the middle of an image's loop.
fn started(image: &[u8]) -> State {
    let mut state = State::new(&[0; RECORD_BYTES], &[0; MEMORY_WORDS]);
    let number = host::read(image, &mut state.record, &mut state.words);
    assert_eq!(number, 0, "a good image");
    host::run(&mut state.record, &mut state.words, SLICE);
    state
}

/// A run on a record kept as bytes; both implementations have it.
type Runs = fn(&mut [u8], &mut [u32], u16) -> u32;

/// Nanoseconds of a call, over as many calls with one limit.
fn time(runs: Runs, state: &mut State, calls: usize, limit: u16) -> f64 {
    let begun = cpu_time();
    for _ in 0..calls {
        let code = runs(black_box(&mut state.record), &mut state.words, limit);
        assert_eq!(code, 0x200_0000 + u32::from(limit), "spent");
    }
    (cpu_time() - begun).as_nanos() as f64 / calls as f64
}

/// The runs of both.
const RUNS: [Runs; 2] = [library::run, host::run];

/// Logged runs of both, as runs that have one limit.
const LOGGED: [Runs; 2] = [
    |record, words, _| library::log(record, words, &mut [0; LOG_BYTES], &mut 0, &mut 0),
    |record, words, _| host::log(record, words, &mut [0; LOG_BYTES], &mut 0, &mut 0),
];

/// Calls of one limit by both, in turns: the best nanoseconds of a call by the
/// library and by the reference.
fn both(runs: [Runs; 2], image: &[u8], calls: usize, limit: u16) -> [f64; 2] {
    let mut best = [f64::MAX; 2];
    for _ in 0..ROUNDS {
        let [mut one, mut two] = [(); 2].map(|()| started(image));
        let library = time(runs[0], &mut one, calls, limit);
        let reference = time(runs[1], &mut two, calls, limit);
        assert!(one == two, "the final states differ");
        best = [best[0].min(library), best[1].min(reference)];
    }
    best
}

/// A row of a table: both times and the library's over the reference's.
fn row(name: &str, [library, reference]: [f64; 2]) -> String {
    let ratio = library / reference;
    format!("{name:8} {library:9.2} {reference:10.2} {ratio:7.2}")
}

/// Long runs: nanoseconds an instruction.
fn long_run(name: &str, image: &[u8]) {
    let times = both(RUNS, image, CALLS, LIMIT).map(|call| call / f64::from(LIMIT));
    println!("{}", row(name, times));
}

/// How many times what its instructions take in a long run a slice takes, by
/// one side: both are timed one after the other, since the speed of a machine
/// changes; the middle one of the rounds counts.
fn over_long_run(runs: Runs, image: &[u8]) -> f64 {
    let mut ratios = [(); ROUNDS].map(|()| {
        let mut state = started(image);
        let long = time(runs, &mut state, LONG, LIMIT) / f64::from(LIMIT);
        time(runs, &mut state, SLICES, SLICE) / (f64::from(SLICE) * long)
    });
    ratios.sort_by(f64::total_cmp);
    ratios[ROUNDS / 2]
}

/// Runs in slices: nanoseconds a slice, and how many times that is what its
/// instructions take in a long run of the same side.
fn slices(name: &str, image: &[u8]) {
    let times = both(RUNS, image, SLICES, SLICE);
    let [one, two] = RUNS.map(|runs| over_long_run(runs, image));
    println!("{} {one:9.2} {two:10.2}", row(name, times));
}

/// Runs of no instruction, which decode and encode the record alone.
fn no_instruction(name: &str, image: &[u8]) {
    println!("{}", row(name, both(RUNS, image, SLICES, 0)));
}

/// Runs of 1,000 instructions with a log: nanoseconds a run.
fn logs(name: &str, image: &[u8]) {
    println!("{}", row(name, both(LOGGED, image, LOGS, LOG_LIMIT)));
}

fn main() {
    if let Err(missing) = library::linked() {
        eprintln!("{missing}");
        std::process::exit(1);
    }
    let only = std::env::args().nth(1);
    let loops = [
        ("plain", plain_loop()),
        ("calls", call_loop()),
        ("untagged", untagged_loop()),
        ("reread", reread_loop()),
    ];
    let is_asked = |name: &str| only.as_ref().is_none_or(|only| only == name);
    let with_slices = is_asked("slices");
    let mut asked: Vec<_> = loops.iter().collect();
    asked.retain(|(name, _)| with_slices || is_asked(name));
    assert!(
        !asked.is_empty(),
        "untagged, plain, reread, calls or slices"
    );
    println!("ns of CPU time, best of {ROUNDS} rounds");
    println!("an instruction of a long run, {CALLS} runs of {LIMIT} a round");
    println!("           library  reference   ratio");
    for (name, image) in &asked {
        long_run(name, image);
    }
    if with_slices {
        print_slices(&asked[..2]);
    }
}

/// The tables of slices, of runs of no instruction and of logs.
fn print_slices(loops: &[&(&str, Vec<u8>)]) {
    println!("a slice of {SLICE} instructions, {SLICES} slices a round");
    println!("           library  reference   ratio   over the long run: both");
    for (name, image) in loops {
        slices(name, image);
    }
    println!("a run of no instruction: decode and encode");
    println!("           library  reference   ratio");
    for (name, image) in loops {
        no_instruction(name, image);
    }
    println!("a run of {LOG_LIMIT} instructions with its log, {LOGS} a round");
    println!("           library  reference   ratio");
    for (name, image) in loops {
        logs(name, image);
    }
}
