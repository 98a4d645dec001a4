//! The two programs.

use std::io::Write;
use std::process::{Command, Output, Stdio};

/// What a program gives for arguments and an input.
fn run(program: &str, arguments: &[&str], input: &[u8]) -> Output {
    let mut child = Command::new(program)
        .args(arguments)
        .stdin(Stdio::piped())
        .stdout(Stdio::piped())
        .stderr(Stdio::piped())
        .spawn()
        .expect("the program starts");
    // The program may end before all is written.
    let _ = child.stdin.take().expect("piped").write_all(input);
    child.wait_with_output().expect("the program ends")
}

const ASSEMBLE: &str = env!("CARGO_BIN_EXE_assemble");
const DISASSEMBLE: &str = env!("CARGO_BIN_EXE_disassemble");
const EXAMPLES: &str = concat!(env!("CARGO_MANIFEST_DIR"), "/../../examples");

/// A program must fail with these lines, and write nothing else.
fn fails(output: Output, lines: &str) {
    assert_eq!(output.status.code(), Some(1));
    assert_eq!(output.stdout, b"");
    assert_eq!(String::from_utf8_lossy(&output.stderr), lines);
}

#[test]
fn from_a_file_and_from_standard_input() {
    let text = include_bytes!("../../../examples/first_package.zk");
    let image = include_bytes!("../../../examples/first_package.img");
    let from_file = run(ASSEMBLE, &[&format!("{EXAMPLES}/first_package.zk")], b"");
    let from_input = run(ASSEMBLE, &[], text);
    for output in [from_file, from_input] {
        assert!(output.status.success());
        assert_eq!(output.stdout, image);
        assert_eq!(output.stderr, b"");
    }
    let from_file = run(
        DISASSEMBLE,
        &[&format!("{EXAMPLES}/first_package.img")],
        b"",
    );
    let from_input = run(DISASSEMBLE, &[], image);
    assert!(from_file.status.success() && from_input.status.success());
    assert_eq!(from_file.stdout, from_input.stdout);
    let again = run(ASSEMBLE, &[], &from_file.stdout);
    assert_eq!(again.stdout, image);
}

#[test]
fn reasons() {
    let lines = "assemble: standard input: line 2: unknown word 'MOVE'\n";
    fails(run(ASSEMBLE, &[], b"segment s\nMOVE a|1"), lines);
    fails(
        run(ASSEMBLE, &["x", "y"], b""),
        "assemble: at most one file\n",
    );
    let missing = run(ASSEMBLE, &["no such file"], b"");
    let reason = String::from_utf8_lossy(&missing.stderr).into_owned();
    assert!(reason.starts_with("assemble: no such file: "), "{reason}");
    let lines = "disassemble: standard input: refused 1\n";
    fails(run(DISASSEMBLE, &[], b""), lines);
}

#[cfg(target_os = "linux")]
#[test]
fn output_that_cannot_be_written() {
    let full = std::fs::File::create("/dev/full").expect("the device");
    let output = Command::new(ASSEMBLE)
        .arg(format!("{EXAMPLES}/halt.zk"))
        .stdout(full)
        .output()
        .expect("the program ends");
    assert_eq!(output.status.code(), Some(1));
    let reason = String::from_utf8_lossy(&output.stderr).into_owned();
    assert!(
        reason.starts_with("assemble: standard output: "),
        "{reason}"
    );
}
