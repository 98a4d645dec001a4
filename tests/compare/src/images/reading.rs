//! One read by both implementations.

use crate::hex;
use crate::state::{Pair, State};
use generator::lent::{self, Lent};
use generator::Rng;
use reference::MEMORY_WORDS;

/// Most bytes of an input that a difference shows.
const SHOWN: usize = 40_000;

/// Bytes of any kind and random words, at times more than are needed.
pub fn start(rng: &mut Rng) -> State {
    let lent = match rng.below(3) {
        0 => lent::mid_run(rng),
        1 => lent::sound(rng),
        _ => lent::garbage(rng),
    };
    let words = MEMORY_WORDS + rng.pick(&[0, 0, 1, 100]);
    start_of(rng, &lent, words)
}

/// A record with this many random words, at times with bytes after it.
pub fn start_of(rng: &mut Rng, lent: &Lent, words: usize) -> State {
    let words: Vec<u32> = (0..words).map(|_| rng.next() as u32).collect();
    let mut state = State::new(&lent.bytes, &words);
    state.append(rng);
    state
}

/// What both implementations left behind.
#[derive(Clone, Debug)]
pub struct Reading {
    start: State,
    pub pair: Pair,
    /// Whether it is still what it was at the start.
    as_before: bool,
}

impl Reading {
    pub fn new(start: State) -> Reading {
        Reading {
            pair: Pair::new(&start),
            as_before: true,
            start,
        }
    }

    /// Reads an image from the start on. Gives the number, or the difference.
    pub fn compare(&mut self, image: &[u8]) -> Result<u8, String> {
        if !self.as_before {
            self.pair.set(&self.start);
        }
        self.as_before = false;
        let number = self.pair.read(image);
        let number = number.map_err(|what| self.described(image, &what))?;
        self.as_before = number != 0;
        if self.as_before && self.pair.reference != self.start {
            return Err(self.described(image, "changed by a refused read"));
        }
        Ok(number)
    }

    fn described(&self, image: &[u8], what: &str) -> String {
        format!(
            "{what}\nrecord before {}\n{} words, image of {} bytes {}",
            hex(&self.start.record),
            self.start.words.len(),
            image.len(),
            hex(&image[..image.len().min(SHOWN)]),
        )
    }
}
