//! A growing run of words whose places are handed out as they are added.

use crate::Code;

/// Words of one segment, in order.
#[derive(Clone, Debug, Default)]
pub struct Program {
    words: Vec<u32>,
}

impl Program {
    /// No words yet.
    pub fn new() -> Program {
        Program::default()
    }

    /// The word number that the next word will have.
    pub fn here(&self) -> u32 {
        self.words.len() as u32
    }

    /// Adds an instruction; gives its word number.
    pub fn put(&mut self, code: Code) -> u32 {
        self.word(code.word())
    }

    /// Adds a word; gives its word number.
    pub fn word(&mut self, word: u32) -> u32 {
        self.words.push(word);
        self.here() - 1
    }

    /// Adds several words; gives the first one's word number.
    pub fn block(&mut self, words: impl IntoIterator<Item = u32>) -> u32 {
        let first = self.here();
        self.words.extend(words);
        first
    }

    /// Puts another word in a place already handed out.
    pub fn set(&mut self, place: u32, word: u32) {
        self.words[place as usize] = word;
    }

    /// The words.
    pub fn words(&self) -> &[u32] {
        &self.words
    }
}
