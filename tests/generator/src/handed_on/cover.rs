//! How the capabilities that a relay is given lie on a list.

use crate::random::Rng;
use assembler::*;

/// Most words before and after a list that pieces reach to.
pub const AROUND: u32 = 2;

/// How a list is covered.
#[derive(Clone, Copy, Debug, PartialEq, Eq)]
pub enum Cover {
    /// By one capability.
    One,
    /// By two, of which one has the giver as its source.
    TwoSources,
    /// By one, after another on some of its words with the giver as source.
    FailingWord,
    /// But for some of its last words.
    ShortEnd,
    /// But for some of its first words.
    ShortStart,
    /// By two or three together.
    Together,
    /// For writing alone; some of its first words mostly for reading too.
    WriteOnly,
    /// Not at all; words before it may be.
    Elsewhere,
    /// As far as word 4,095; the list goes on.
    PastTheEnd,
}

/// One of them; those with more than one source come more often.
pub fn choose(rng: &mut Rng) -> Cover {
    match rng.below(100) {
        0..=7 => Cover::One,
        8..=31 => Cover::TwoSources,
        32..=55 => Cover::FailingWord,
        56..=66 => Cover::ShortEnd,
        67..=69 => Cover::ShortStart,
        70..=78 => Cover::Together,
        79..=86 => Cover::WriteOnly,
        87..=92 => Cover::Elsewhere,
        _ => Cover::PastTheEnd,
    }
}

impl Cover {
    /// Whether it takes sources that differ.
    pub fn needs_giver(self) -> bool {
        matches!(self, Cover::TwoSources | Cover::FailingWord)
    }

    /// Whether a call with the list comes past the cover check.
    pub fn is_whole(self) -> bool {
        matches!(self, Cover::One | Cover::TwoSources | Cover::FailingWord)
    }

    /// The giver's rights on the list.
    pub fn givers_rights(self, rng: &mut Rng) -> u8 {
        match self {
            Cover::FailingWord => rng.pick(&[0, 0, 0, W]),
            Cover::TwoSources => rng.pick(&[0, R, R, R | W]),
            _ => rng.pick(&[0, R]),
        }
    }
}

/// Words of a list that the relay is given: `length` from its word `first` on,
/// which may lie before the list. The source is the one of the whole list, or
/// the giver.
#[derive(Clone, Copy, Debug)]
pub struct Piece {
    pub first: i32,
    pub length: u32,
    pub flags: u8,
    pub givers: bool,
}

impl Piece {
    fn new(first: u32, length: u32, flags: u8) -> Piece {
        Piece {
            first: first as i32,
            length,
            flags,
            givers: false,
        }
    }

    /// All words of a list of `length` words and perhaps some around it.
    fn whole(rng: &mut Rng, length: u32) -> Piece {
        let [before, after] = [(); 2].map(|()| rng.pick(&[0, 0, 1, AROUND]));
        Piece {
            first: -(before as i32),
            length: before + length + after,
            flags: rng.pick(&[R, R, R | W]),
            givers: false,
        }
    }

    /// The last words before a list.
    fn before(length: u32) -> Piece {
        Piece {
            first: -(length as i32),
            ..Piece::new(0, length, R)
        }
    }

    /// The same words with the giver as their source.
    fn by_giver(self) -> Piece {
        Piece {
            givers: true,
            ..self
        }
    }
}

/// Pieces that cover a list of `length` words in this way.
pub fn pieces(rng: &mut Rng, cover: Cover, length: u32) -> Vec<Piece> {
    match cover {
        Cover::One | Cover::PastTheEnd => {
            let whole = Piece::whole(rng, length);
            let givers = rng.chance(15);
            vec![Piece { givers, ..whole }]
        }
        Cover::TwoSources => two_sources(rng, length),
        Cover::FailingWord => failing_word(rng, length),
        Cover::ShortEnd => {
            let missing = rng.pick(&[1, 1, 2, 3]).min(length - 1);
            vec![Piece::new(0, length - missing, rng.pick(&[R, R | W]))]
        }
        Cover::ShortStart => {
            let missing = rng.pick(&[1, 1, 2]);
            vec![Piece::new(missing, length - missing + rng.below(2), R)]
        }
        Cover::Together => together(rng, length),
        Cover::WriteOnly => write_only(rng, length),
        Cover::Elsewhere if rng.chance(50) => Vec::new(),
        Cover::Elsewhere => vec![Piece::before(rng.between(1, 2))],
    }
}

/// Two on the whole list; before them mostly two that are together as good and
/// by which each word is read.
fn two_sources(rng: &mut Rng, length: u32) -> Vec<Piece> {
    let mut pieces = vec![
        Piece::whole(rng, length),
        Piece::whole(rng, length).by_giver(),
    ];
    if rng.chance(50) {
        pieces.swap(0, 1);
    }
    if rng.chance(65) {
        let split = rng.between(1, length - 1);
        pieces.insert(0, Piece::new(0, split, R));
        pieces.insert(1, Piece::new(split, length - split, R));
    }
    pieces
}

/// A piece of the giver's, not on word 0, before one on the whole list.
fn failing_word(rng: &mut Rng, length: u32) -> Vec<Piece> {
    let first = rng.between(1, length - 1);
    let most = (length - first).min(3);
    let failing = Piece::new(first, rng.between(1, most), R).by_giver();
    let mut pieces = vec![failing, Piece::whole(rng, length)];
    if rng.chance(30) {
        let other = Piece::whole(rng, length);
        let givers = rng.chance(50);
        pieces.push(Piece { givers, ..other });
    }
    if rng.chance(30) {
        pieces.insert(0, Piece::new(0, 1, R));
    }
    pieces
}

/// Two or three pieces, some overlapping, of which none is the whole list.
fn together(rng: &mut Rng, length: u32) -> Vec<Piece> {
    let split = rng.between(1, length - 1);
    let from = rng.between(1, split);
    let givers = rng.chance(50);
    let second = Piece::new(from, length - from, rng.pick(&[R, R | W]));
    let mut pieces = vec![Piece::new(0, split, R), Piece { givers, ..second }];
    if rng.chance(30) {
        pieces.push(Piece::new(1, length, R));
    }
    pieces
}

/// The whole list for writing; some of its first words for reading.
fn write_only(rng: &mut Rng, length: u32) -> Vec<Piece> {
    let whole = Piece::whole(rng, length);
    let mut pieces = vec![Piece { flags: W, ..whole }];
    if rng.chance(85) {
        let read = Piece::new(0, rng.between(1, length - 1), R);
        pieces.insert(rng.below(2) as usize, read);
    }
    pieces
}
