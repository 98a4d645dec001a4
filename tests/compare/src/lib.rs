//! The proved library held against the reference implementation.

mod answers;
pub mod batch;
mod checks;
mod cpu_time;
pub mod host;
pub mod images;
pub mod isolation;
#[cfg_attr(library_missing, path = "library_missing.rs")]
pub mod library;
pub mod logs;
pub mod programs;
mod references;
pub mod registers;
pub mod runs;
mod state;

pub use answers::{Answers, Kind, KINDS};
pub use checks::compare_checks;
pub use cpu_time::cpu_time;
pub use references::Reference;
pub use state::{Pair, State};

use std::fmt::Write;

/// Bytes in hexadecimal.
fn hex(bytes: &[u8]) -> String {
    let mut text = String::with_capacity(2 * bytes.len());
    for byte in bytes {
        let _ = write!(text, "{byte:02x}");
    }
    text
}
