//! Texts with one segment under test, and the words that come out. Not every
//! test uses all of it.

#![allow(dead_code)]

use reference::{Machine, MEMORY_WORDS};

/// Domain, stack and start for segments that come before.
pub const REST: &str = "\ndomain only stack code\nrights code E\nstart only code|0\n";

/// A text whose segment `code` has these lines, from line 2 on.
pub fn around(lines: &str) -> String {
    format!("segment code\n{lines}{REST}")
}

/// The machine and the memory of an image that the reader must accept.
pub fn read(image: &[u8]) -> (Machine, Vec<u32>) {
    let mut machine = Machine::default();
    let mut memory = vec![0; MEMORY_WORDS];
    let read = reference::read_image(image, &mut machine, &mut memory);
    assert_eq!(read, Ok(()), "the reader accepts what the tool makes");
    (machine, memory)
}

/// The words of a segment of a text that must be right.
pub fn words(text: &str, segment: u32) -> Vec<u32> {
    let image = text::assemble(text).unwrap_or_else(|error| panic!("{error} in\n{text}"));
    let (machine, memory) = read(&image);
    reference::segment(&machine, &memory, segment).to_vec()
}
