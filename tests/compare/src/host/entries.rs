//! Images that are run at once, in a memory of their own.

use super::{Call, Comparison};
use crate::{hex, library};
use generator::{damaged_image, image, Rng};
use reference::host;

/// Bytes of the longest result.
const LONGEST_RESULT: usize = 8;

impl Comparison {
    /// Runs `count` generated and `count` damaged images, each with results of
    /// all lengths in turn.
    pub fn entries(&mut self, count: u64) -> Result<(), String> {
        for index in 0..count {
            let mut rng = Rng::new(self.seed ^ 12, index);
            for image in [image(self.seed, index), damaged_image(self.seed, index)] {
                let limit = limit(&mut rng, index);
                let long = rng.between(4, LONGEST_RESULT as u32) as usize;
                for length in [index as usize % (LONGEST_RESULT + 1), long] {
                    let number = same_result(&image, limit, length)?;
                    self.tally.add(Call::Entry, number);
                }
            }
        }
        Ok(())
    }
}

/// Mostly of some instructions, seldom the highest.
fn limit(rng: &mut Rng, index: u64) -> u16 {
    match index % 64 {
        0 => 65_535,
        1..=3 => 0,
        4..=9 => 1,
        10..=45 => rng.between(2, 60) as u16,
        _ => 1000,
    }
}

/// The number that both give, where the results are the same; a refusal leaves
/// the result, and bytes past the fourth stay.
fn same_result(image: &[u8], limit: u16, length: usize) -> Result<u8, String> {
    let before = &[0xA5, 0x5A, 0xEE, 0x11, 0x22, 0x33, 0x44, 0x55][..length];
    let (mut given, mut due) = (before.to_vec(), before.to_vec());
    let answer = library::entry(image, limit, &mut given);
    let number = host::entry(image, limit, &mut due);
    let written = if number == 0 { 4 } else { 0 };
    if answer == number && given == due && given[written..] == before[written..] {
        return Ok(number);
    }
    Err(format!(
        "limit {limit}, result of {length} bytes: library answers {answer} with {given:?}, \
         reference {number} with {due:?}\nimage {}",
        hex(image)
    ))
}
