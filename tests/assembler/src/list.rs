//! Argument lists.

use crate::{R, W};

/// A mode word for `length` words with the flags R, W or both.
pub fn mode(length: u32, flags: u8) -> u32 {
    let mut word = length;
    if flags & R != 0 {
        word += 0x4000_0000;
    }
    if flags & W != 0 {
        word += 0x8000_0000;
    }
    word
}

/// An argument list: return location, activation record, arguments.
#[derive(Clone, Debug)]
pub struct ArgumentList {
    words: Vec<u32>,
}

impl ArgumentList {
    /// A list without arguments that returns to the place a pointer word
    /// names.
    pub fn new(return_location: u32) -> ArgumentList {
        ArgumentList {
            words: vec![0, return_location, 0],
        }
    }

    /// The list with one more argument, `length` words from the place a
    /// pointer word names.
    pub fn argument(self, pointer_word: u32, length: u32, flags: u8) -> ArgumentList {
        self.raw_argument(pointer_word, mode(length, flags))
    }

    /// The list with one more argument given by its two words.
    pub fn raw_argument(mut self, pointer_word: u32, mode_word: u32) -> ArgumentList {
        self.words[0] += 1;
        self.words.extend([pointer_word, mode_word]);
        self
    }

    /// The list's words.
    pub fn words(self) -> Vec<u32> {
        self.words
    }
}
