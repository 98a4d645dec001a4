//! What the two programs share: a file or standard input in, standard output.

use std::io::{Read, Write};
use std::process::ExitCode;

/// Reads the file named by the only argument, or standard input if there is
/// none; writes what `convert` gives. A reason goes to standard error.
pub fn run(name: &str, convert: fn(&[u8]) -> Result<Vec<u8>, String>) -> ExitCode {
    let mut arguments = std::env::args_os().skip(1);
    let file = arguments.next();
    if arguments.next().is_some() {
        return fail(name, "at most one file");
    }
    let (input, from) = match &file {
        Some(file) => (std::fs::read(file), file.to_string_lossy().into_owned()),
        None => (standard_input(), "standard input".to_string()),
    };
    let converted = input
        .map_err(|error| error.to_string())
        .and_then(|bytes| convert(&bytes));
    let output = match converted {
        Ok(output) => output,
        Err(reason) => return fail(name, &format!("{from}: {reason}")),
    };
    let mut out = std::io::stdout();
    match out.write_all(&output).and_then(|()| out.flush()) {
        Ok(()) => ExitCode::SUCCESS,
        Err(error) => fail(name, &format!("standard output: {error}")),
    }
}

/// All bytes of standard input.
fn standard_input() -> std::io::Result<Vec<u8>> {
    let mut bytes = Vec::new();
    std::io::stdin().read_to_end(&mut bytes)?;
    Ok(bytes)
}

/// Tells the reason; a reader of standard error that is gone is no matter.
fn fail(name: &str, reason: &str) -> ExitCode {
    let _ = writeln!(std::io::stderr(), "{name}: {reason}");
    ExitCode::FAILURE
}
