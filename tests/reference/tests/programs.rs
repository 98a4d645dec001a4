//! The programs that read an image from standard input.

use std::io::Write;
use std::process::{Command, Stdio};

const RUN_IMAGE: &str = env!("CARGO_BIN_EXE_run_image");
const LOG_CROSSINGS: &str = env!("CARGO_BIN_EXE_log_crossings");

/// What a program prints for these bytes.
fn output(program: &str, input: &[u8]) -> String {
    let mut child = Command::new(program)
        .stdin(Stdio::piped())
        .stdout(Stdio::piped())
        .spawn()
        .expect("the program starts");
    // The program may stop reading before all is written.
    let _ = child.stdin.take().expect("piped").write_all(input);
    let output = child.wait_with_output().expect("the program ends");
    assert!(output.status.success());
    String::from_utf8(output.stdout).expect("plain text")
}

/// One segment, one domain; the only word is HALT.
const HALTING: [u8; 34] = [
    8, 0, 1, 0, 1, 1, 0, 0, 0, 0, 0, 0, //
    8, 0, 2, 0, 0, 0, 0, 0, 0, 0, 0, 0, //
    2, 0, 3, 0, 0, 4, //
    0, 0, 4, 0,
];

#[test]
fn prints_the_result_of_a_run() {
    let expected = "end halted\ncount 1\ndomain 0\nat 0 0\na 0\n";
    assert_eq!(output(RUN_IMAGE, &HALTING), expected);
}

#[test]
fn prints_the_log_of_a_run() {
    assert_eq!(output(LOG_CROSSINGS, &HALTING), "calls 0 returns 0\n");
}

#[test]
fn both_print_a_refusal_alone() {
    let mut longer = HALTING.to_vec();
    longer.push(0);
    let mut longest = longer.clone();
    longest.resize(200_000, 0);
    let mut dead_gate = HALTING.to_vec();
    (dead_gate[16], dead_gate[29]) = (1, 11);
    let mut dead_gate_and_one = dead_gate.clone();
    dead_gate_and_one.push(0);
    for program in [RUN_IMAGE, LOG_CROSSINGS] {
        assert_eq!(output(program, &[]), "refused 1\n");
        assert_eq!(output(program, &longer), "refused 6\n");
        assert_eq!(output(program, &longest), "refused 6\n");
        assert_eq!(output(program, &dead_gate), "refused 10\n");
        assert_eq!(output(program, &dead_gate_and_one), "refused 10\n");
        assert_eq!(output(program, &[0; 100_000]), "refused 2\n");
    }
}
