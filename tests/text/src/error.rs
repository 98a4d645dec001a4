//! Why a text describes no image.

use std::fmt;

/// A line of the text, counted from 1, and what is wrong there. What is
/// missing from the whole text is reported at its last line.
#[derive(Clone, Debug, PartialEq, Eq)]
pub struct Error {
    pub line: usize,
    pub reason: String,
}

impl fmt::Display for Error {
    fn fmt(&self, out: &mut fmt::Formatter) -> fmt::Result {
        write!(out, "line {}: {}", self.line, self.reason)
    }
}

impl std::error::Error for Error {}
