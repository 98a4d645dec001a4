//! The proved reader and writer of images held against the reference's.

mod reading;
mod samples;
mod tally;
mod writing;

pub use samples::{samples, Sample};
pub use tally::{Call, Tally};

use crate::library;
use crate::state::State;
use generator::{lent, made_damaged, program, Rng};
use reading::{start, start_of, Reading};
use reference::image::image_length;
use reference::{machine_from_bytes, MEMORY_WORDS};
use writing::{Writing, LONGEST_OUTPUT};

/// Records and words that reads begin with.
const STARTS: usize = 12;
/// Lengths of memories that are too short.
const SHORT_MEMORIES: [usize; 5] = [0, 1, 4096, 8190, 8191];
/// Bytes of the longest input.
const LONG_INPUT: usize = 100_000_000;

/// Calls that were compared so far.
pub struct Comparison {
    pub tally: Tally,
    rng: Rng,
    readings: Vec<Reading>,
    writing: Writing,
    next: usize,
}

impl Comparison {
    /// Begins; fails if the library is missing.
    pub fn new(seed: u64) -> Result<Comparison, String> {
        library::linked()?;
        let mut rng = Rng::new(seed, 0);
        let starts = (0..STARTS).map(|_| start(&mut rng));
        Ok(Comparison {
            tally: Tally::default(),
            readings: starts.map(Reading::new).collect(),
            rng,
            writing: Writing::new(),
            next: 0,
        })
    }

    /// Reads each prefix of the images.
    pub fn prefixes(&mut self, samples: &[Sample]) -> Result<(), String> {
        for sample in samples {
            for length in 0..=sample.bytes.len() {
                self.read(&sample.bytes[..length])?;
            }
        }
        Ok(())
    }

    /// Reads the images with each byte changed, in the long ones to all other
    /// values only if that is asked.
    pub fn changes(&mut self, samples: &[Sample], all: bool) -> Result<(), String> {
        for sample in samples {
            let mut bytes = sample.bytes.clone();
            for place in 0..bytes.len() {
                for byte in sample.changes(place, all) {
                    bytes[place] = byte;
                    self.read(&bytes)?;
                }
                bytes[place] = sample.bytes[place];
            }
        }
        Ok(())
    }

    /// Reads damaged images.
    pub fn damaged(&mut self, seed: u64, count: u64) -> Result<(), String> {
        for index in 0..count {
            let image = made_damaged(seed, index);
            self.tally.dead_gates.add(&image);
            self.read(&image.bytes)?;
        }
        Ok(())
    }

    /// Reads images that are accepted, and writes each back.
    pub fn good(&mut self, seed: u64, count: u64) -> Result<(), String> {
        for index in 0..count {
            self.read_and_write(&program(&mut Rng::new(seed, index)).bytes())?;
        }
        Ok(())
    }

    /// Reads and writes back the ten images.
    pub fn whole(&mut self, samples: &[Sample]) -> Result<(), String> {
        samples
            .iter()
            .try_for_each(|sample| self.read_and_write(&sample.bytes))
    }

    /// Writes records in the middle of a run, sound ones and garbage.
    pub fn records(&mut self, count: u64) -> Result<(), String> {
        for index in 0..count {
            let lent = match index % 3 {
                0 => lent::mid_run(&mut self.rng),
                1 => lent::sound(&mut self.rng),
                _ => lent::garbage(&mut self.rng),
            };
            let mut state = State::from(lent);
            state.append(&mut self.rng);
            self.write_lengths(&state)?;
        }
        Ok(())
    }

    /// Reads and writes with memories that are too short.
    pub fn short_memories(&mut self, samples: &[Sample]) -> Result<(), String> {
        for words in SHORT_MEMORIES {
            for lent in [lent::sound, lent::garbage].map(|make| make(&mut self.rng)) {
                let start = start_of(&mut self.rng, &lent, words);
                self.read_all(start, samples)?;
            }
        }
        Ok(())
    }

    /// Reads into records that are too short, and writes of them: 8.
    pub fn short_records(&mut self, samples: &[Sample]) -> Result<(), String> {
        for words in [0, MEMORY_WORDS - 1, MEMORY_WORDS, MEMORY_WORDS] {
            let lent = lent::short(&mut self.rng);
            let words: Vec<u32> = (0..words).map(|_| self.rng.next() as u32).collect();
            self.read_all(State::new(&lent.bytes, &words), samples)?;
        }
        Ok(())
    }

    /// Writes a state, and reads all, half and nothing of the images over it.
    fn read_all(&mut self, start: State, samples: &[Sample]) -> Result<(), String> {
        self.write_lengths(&start)?;
        let mut reading = Reading::new(start);
        for bytes in samples.iter().map(|sample| &sample.bytes) {
            for image in [&bytes[..], &bytes[..bytes.len() / 2], &[]] {
                self.tally.add(Call::Read, reading.compare(image)?);
            }
        }
        Ok(())
    }

    /// Reads 100 MB of zeros, alone and after the images.
    pub fn long_inputs(&mut self, samples: &[Sample]) -> Result<(), String> {
        let mut input = vec![0; LONG_INPUT];
        self.read(&input)?;
        for sample in samples {
            let length = sample.bytes.len();
            input[..length].copy_from_slice(&sample.bytes);
            self.read(&input)?;
            input[..length].fill(0);
        }
        Ok(())
    }

    /// Reads an image from the next of the starts on. Gives its index.
    fn read(&mut self, image: &[u8]) -> Result<usize, String> {
        self.next = (self.next + 1) % STARTS;
        let number = self.readings[self.next].compare(image)?;
        self.tally.add(Call::Read, number);
        Ok(self.next)
    }

    /// Reads an image that is accepted and writes back what it gave.
    fn read_and_write(&mut self, image: &[u8]) -> Result<(), String> {
        let index = self.read(image)?;
        let state = std::mem::take(&mut self.readings[index].pair.library);
        let written = self.write_lengths(&state);
        self.readings[index].pair.library = state;
        written?;
        if self.writing.output(image.len()) != image {
            return Err(format!("not written back: {}", crate::hex(image)));
        }
        Ok(())
    }

    /// Writes a state to outputs that are too short, longer, and last of the
    /// length of its image; of any length if there is none.
    fn write_lengths(&mut self, state: &State) -> Result<(), String> {
        let exact = match machine_from_bytes(&state.record) {
            Ok(machine) => image_length(&machine),
            Err(_) => self.rng.between(1, LONGEST_OUTPUT as u32) as usize,
        };
        let longer = (exact + 1 + self.rng.below(60) as usize).min(LONGEST_OUTPUT);
        let shorter = self.rng.below(exact as u32) as usize;
        let dead = u64::from(lent::is_dead_gate_alone(&state.record));
        for length in [exact - 1, shorter, longer, exact] {
            let number = self.writing.compare(state, length)?;
            self.tally.add(Call::Write, number);
            self.tally.dead_writes += dead;
        }
        Ok(())
    }
}

/// Compares all. Calls `progress` after each part.
pub fn compare_images(
    seed: u64,
    count: u64,
    all_changes: bool,
    mut progress: impl FnMut(&str, &Tally),
) -> Result<Tally, String> {
    let samples = samples();
    let mut all = Comparison::new(seed)?;
    all.prefixes(&samples)?;
    progress("prefixes of ten images", &all.tally);
    all.changes(&samples, all_changes)?;
    progress("changed bytes of ten images", &all.tally);
    all.whole(&samples)?;
    all.short_memories(&samples)?;
    all.short_records(&samples)?;
    progress("short memories and records", &all.tally);
    all.long_inputs(&samples)?;
    progress("inputs of 100 MB", &all.tally);
    all.records(count / 10)?;
    progress("records written", &all.tally);
    all.damaged(seed, count)?;
    progress("damaged images", &all.tally);
    all.good(seed, count)?;
    progress("good images, written back", &all.tally);
    Ok(all.tally)
}
