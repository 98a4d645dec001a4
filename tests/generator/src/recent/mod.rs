//! The registers of recent capabilities: images that use them in each way,
//! records with registers of all kinds, and what runs did with them.

mod counts;
mod damage;
mod faults;
mod image;
mod records;
mod uses;

pub use counts::Recents;
pub use damage::spoil_a_register;
pub use image::build;
pub use records::{about_to_refer, fill, mend};
