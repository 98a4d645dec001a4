//! Reads an image from standard input, runs it and prints its log.

use std::io::{Read, Write};

fn main() -> std::io::Result<()> {
    let mut image = Vec::new();
    std::io::stdin()
        .take(reference::LONGEST_IMAGE as u64 + 1)
        .read_to_end(&mut image)?;
    std::io::stdout().write_all(reference::printed_log(&image).as_bytes())
}
