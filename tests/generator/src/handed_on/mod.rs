//! Lists handed on: calls through a gate with a tagged a.

mod counts;
mod cover;
mod found;
mod image;
mod plan;
mod records;

pub(crate) use counts::Before;
pub use counts::HandedOn;
pub use found::{next_list, Found, Uncovered, UNCOVERED};
pub use image::build;
pub use records::about_to_hand_on;
