//! The multidomain processor, written plainly from its description.
//!
//! One module for each part of the description. A `Machine` may hold any
//! values at all; every call refuses one that is not sound with 9. `host` has
//! the calls on a machine that is kept as bytes.
//! What every instruction goes through is always inlined.

pub mod bytes;
pub mod calls;
pub mod checks;
pub mod crossings;
pub mod host;
pub mod image;
pub mod instructions;
pub mod numbers;
pub mod pointers;
pub mod recent;
pub mod record;
pub mod report;
pub mod run;
pub mod soundness;
pub mod words;

pub use bytes::{machine_from_bytes, record_bytes, RECORD_BYTES};
pub use checks::{could_write, may_see};
pub use crossings::{printed_log, LOG_BYTES};
pub use image::{read_image, segment, segment_number, write_image};
pub use instructions::Completed;
pub use numbers::{Fault, Refusal};
pub use record::Machine;
pub use run::{run, run_without_registers, step, stretch, stretch_without_registers};
pub use run::{Ending, Processor, Run, Step};
pub use soundness::is_sound;

/// Fewest words that a memory may have.
pub const MEMORY_WORDS: usize = 8192;
/// Most words of one segment.
pub const SEGMENT_WORDS: u16 = 4096;
/// Bytes of the longest image.
pub const LONGEST_IMAGE: usize = 33_080;
