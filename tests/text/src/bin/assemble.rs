//! Reads a text from a file or standard input and writes its image.

use std::process::ExitCode;

fn main() -> ExitCode {
    text::program::run("assemble", |bytes| {
        text::assemble_bytes(bytes).map_err(|error| error.to_string())
    })
}
