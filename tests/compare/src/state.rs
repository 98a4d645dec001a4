//! A record as bytes with its words, and two of them.

use crate::hex;
use generator::lent::{self, Lent};
use generator::Rng;

/// Most words that a difference shows.
const SHOWN: usize = 40;

/// What a host keeps of a machine: its record as bytes, at times with more
/// bytes after it, and its words.
#[derive(Debug, Default, PartialEq, Eq)]
pub struct State {
    pub record: Vec<u8>,
    pub words: Vec<u32>,
}

impl State {
    pub fn new(record: &[u8], words: &[u32]) -> State {
        State {
            record: record.to_vec(),
            words: words.to_vec(),
        }
    }

    /// Appends bytes that are no part of the record; mostly none.
    pub fn append(&mut self, rng: &mut Rng) {
        let after = rng.pick(&[0, 0, 0, 1, 40]);
        self.record.extend((0..after).map(|_| rng.next() as u8));
    }
}

/// Copies into the vectors that are there.
impl Clone for State {
    fn clone(&self) -> State {
        State::new(&self.record, &self.words)
    }

    fn clone_from(&mut self, other: &State) {
        self.record.clone_from(&other.record);
        self.words.clone_from(&other.words);
    }
}

impl From<Lent> for State {
    fn from(Lent { bytes, words, .. }: Lent) -> State {
        let record = bytes;
        State { record, words }
    }
}

/// A state of any kind: in the middle of a run, sound, garbage, too short.
pub(crate) fn any_state(rng: &mut Rng) -> State {
    let lent = match rng.below(10) {
        0..=2 => lent::mid_run(rng),
        3..=5 => lent::sound(rng),
        6..=8 => lent::garbage(rng),
        _ => return lent::short(rng).into(),
    };
    let mut state = State::from(lent);
    state.append(rng);
    state
}

/// The state that the library changes and the one that the reference changes.
#[derive(Clone, Debug, Default)]
pub struct Pair {
    pub library: State,
    pub reference: State,
}

impl Pair {
    pub fn new(state: &State) -> Pair {
        let mut pair = Pair::default();
        pair.set(state);
        pair
    }

    /// Gives both the same state.
    pub fn set(&mut self, state: &State) {
        self.library.clone_from(state);
        self.reference.clone_from(state);
    }

    /// Whether all of both states is equal.
    pub fn same(&self) -> bool {
        self.library == self.reference
    }

    /// What differs, after the answers of both.
    pub fn difference(&self, answers: &str) -> String {
        let [given, due] = [&self.library, &self.reference];
        let bytes = differing(&given.record, &due.record);
        let words = differing(&given.words, &due.words);
        let shown = words[..words.len().min(SHOWN)].iter();
        let shown: Vec<String> = shown
            .map(|&place| {
                format!(
                    "{place}: {:08x} {:08x}",
                    given.words[place], due.words[place]
                )
            })
            .collect();
        format!(
            "{answers}\nrecord, library   {}\nrecord, reference {}\n\
             bytes of the record that differ: {bytes:?}\n\
             words that differ (library, reference): {} {shown:?}",
            hex(&given.record),
            hex(&due.record),
            words.len(),
        )
    }
}

/// The places where two slices of the same length differ.
fn differing<T: PartialEq>(one: &[T], two: &[T]) -> Vec<usize> {
    let places = one.iter().zip(two).enumerate();
    let differing = places.filter(|(_, (one, two))| one != two);
    differing.map(|(place, _)| place).collect()
}
