//! Reads an image from a file or standard input and writes it as text.

use std::process::ExitCode;

fn main() -> ExitCode {
    text::program::run("disassemble", |bytes| match text::disassemble(bytes) {
        Ok(text) => Ok(text.into_bytes()),
        Err(refusal) => Err(format!("refused {}", refusal.number())),
    })
}
