//! Images whose gates were changed, mostly to dead ones: a segment has gates
//! whose domain lacks E on it.

use crate::random::Rng;
use crate::{call_tree, far_gates, templates, Made};
use assembler::*;
use std::fmt;

/// What was done to the gates of an image that the reader accepted.
#[derive(Clone, Copy, Debug, PartialEq, Eq)]
pub enum DeadGate {
    /// The gate domain lost E.
    Taken,
    /// The gates lead into another domain, which lacks E.
    OtherDomain,
    /// A segment without gates got some; its gate domain lacks E.
    CountRaised,
    /// The gate domain has R, W or G and no E, another domain has E.
    OtherRights,
    /// The first segment has sound gates, the last or one between dead ones.
    LaterSegment,
    /// Two or more segments have dead gates.
    SeveralSegments,
    /// A dead gate, and bytes after kind 4.
    BytesAfter,
    /// A dead gate, and kind 4 without all of its header.
    CutShort,
    /// A dead gate, and another kind where kind 4 is due.
    WrongKind,
    /// A dead gate, and a kind 4 that isn't empty.
    WrongLength,
    /// No gates: the domain that lacks E does no harm.
    NoGates,
}

/// All of them, in order.
pub const DEAD_GATES: [DeadGate; 11] = [
    DeadGate::Taken,
    DeadGate::OtherDomain,
    DeadGate::CountRaised,
    DeadGate::OtherRights,
    DeadGate::LaterSegment,
    DeadGate::SeveralSegments,
    DeadGate::BytesAfter,
    DeadGate::CutShort,
    DeadGate::WrongKind,
    DeadGate::WrongLength,
    DeadGate::NoGates,
];

impl DeadGate {
    /// The number that the reader gives.
    pub fn number(self) -> u8 {
        match self {
            DeadGate::CutShort => 1,
            DeadGate::WrongKind => 2,
            DeadGate::WrongLength => 3,
            DeadGate::NoGates => 0,
            _ => 10,
        }
    }
}

/// How often each was made.
#[derive(Clone, Debug, Default)]
pub struct DeadGates {
    counts: [u64; DEAD_GATES.len()],
}

impl DeadGates {
    /// Counts an image.
    pub fn add(&mut self, image: &Made) {
        if let Some(made) = image.dead_gate {
            self.counts[made as usize] += 1;
        }
    }

    /// How many images were of this kind.
    pub fn of(&self, made: DeadGate) -> u64 {
        self.counts[made as usize]
    }
}

impl fmt::Display for DeadGates {
    fn fmt(&self, out: &mut fmt::Formatter) -> fmt::Result {
        write!(out, "images by what was done to their gates:")?;
        for made in DEAD_GATES {
            write!(out, " {made:?}: {}", self.of(made))?;
        }
        writeln!(out)
    }
}

/// An image of one of the kinds.
pub fn build(rng: &mut Rng) -> Made {
    let made = rng.pick(&DEAD_GATES);
    let mut image = sound(rng);
    match made {
        DeadGate::Taken => take(rng, &mut image),
        DeadGate::OtherDomain => lead_elsewhere(rng, &mut image),
        DeadGate::CountRaised => raise_count(rng, &mut image),
        DeadGate::OtherRights => swap_rights(rng, &mut image),
        DeadGate::LaterSegment => kill_later(rng, &mut image),
        DeadGate::SeveralSegments => kill_several(rng, &mut image),
        DeadGate::NoGates => close(rng, &mut image),
        _ => kill(rng, &mut image),
    }
    Made {
        bytes: with_end(rng, made, image.chunks()),
        dead_gate: Some(made),
    }
}

/// An image with gates, none of them dead.
fn sound(rng: &mut Rng) -> ImageBuilder {
    let build = rng.pick(&[
        call_tree::build as fn(&mut Rng) -> ImageBuilder,
        far_gates::build,
        templates::two_sources,
        templates::endless_calls,
    ]);
    let has_gates = |image: &ImageBuilder, segment| image.gates_of(segment).0 > 0;
    loop {
        let image = build(rng);
        if (0..image.segment_count() as u8).any(|segment| has_gates(&image, segment)) {
            return image;
        }
    }
}

/// Makes a gate dead in any way.
fn kill(rng: &mut Rng, image: &mut ImageBuilder) {
    let ways = [
        take,
        lead_elsewhere,
        raise_count,
        swap_rights,
        kill_later,
        kill_several,
    ];
    rng.pick(&ways)(rng, image);
}

/// One of the segments for which a condition on the number of gates and their
/// domain's rights holds; there is one.
fn some_segment(rng: &mut Rng, image: &ImageBuilder, holds: impl Fn(u16, u8) -> bool) -> u8 {
    let segments: Vec<u8> = (0..image.segment_count() as u8)
        .filter(|&segment| {
            let (count, domain) = image.gates_of(segment);
            holds(count, image.rights_of(domain, segment))
        })
        .collect();
    rng.pick(&segments)
}

/// A segment with gates.
fn gated(rng: &mut Rng, image: &ImageBuilder) -> u8 {
    some_segment(rng, image, |count, _| count > 0)
}

/// Takes E from the domain of a segment's gates.
fn take(rng: &mut Rng, image: &mut ImageBuilder) {
    let segment = gated(rng, image);
    take_from(image, segment);
}

fn take_from(image: &mut ImageBuilder, segment: u8) {
    let (_, domain) = image.gates_of(segment);
    let rights = image.rights_of(domain, segment);
    image.rights(domain, segment, rights & !E);
}

/// Leads the gates of a segment into another domain, which lacks E.
fn lead_elsewhere(rng: &mut Rng, image: &mut ImageBuilder) {
    let segment = gated(rng, image);
    let (count, domain) = image.gates_of(segment);
    let other = other_domain(rng, image, domain);
    image.gates(segment, count, other);
    take_from(image, segment);
}

fn other_domain(rng: &mut Rng, image: &ImageBuilder, domain: u8) -> u8 {
    let domains = image.domain_count() as u32;
    ((u32::from(domain) + rng.between(1, domains - 1)) % domains) as u8
}

/// Gives gates to a segment that has none, and whose gate domain lacks E: one
/// of data.
fn raise_count(rng: &mut Rng, image: &mut ImageBuilder) {
    let closed = |count, rights| count == 0 && rights & E == 0;
    let segment = some_segment(rng, image, closed);
    let (_, domain) = image.gates_of(segment);
    let words = image.words(segment).len() as u32;
    let any = rng.between(1, words);
    image.gates(segment, rng.pick(&[1, any, words]) as u16, domain);
}

/// Gives the domain of a segment's gates R, W or G in the place of E, and
/// another domain E.
fn swap_rights(rng: &mut Rng, image: &mut ImageBuilder) {
    let segment = gated(rng, image);
    let (_, domain) = image.gates_of(segment);
    let other = other_domain(rng, image, domain);
    let rights = rng.pick(&[R, W, G, R | W, R | G, W | G, R | W | G]);
    image.rights(domain, segment, rights);
    image.rights(other, segment, image.rights_of(other, segment) | E);
}

/// Gives the first segment sound gates, and another dead ones: the last one as
/// often as any.
fn kill_later(rng: &mut Rng, image: &mut ImageBuilder) {
    let last = image.segment_count() as u32 - 1;
    let (count, domain) = image.gates_of(0);
    image.gates(0, count.max(1), domain);
    image.rights(domain, 0, image.rights_of(domain, 0) | E);
    let any = rng.between(1, last);
    let segment = rng.pick(&[any, last]) as u8;
    kill_in(image, segment);
}

/// Gives two or more segments dead gates.
fn kill_several(rng: &mut Rng, image: &mut ImageBuilder) {
    let mut left: Vec<u8> = (0..image.segment_count() as u8).collect();
    let any = rng.between(2, left.len() as u32);
    for _ in 0..rng.pick(&[2, any]) {
        let place = rng.below(left.len() as u32) as usize;
        kill_in(image, left.swap_remove(place));
    }
}

/// Takes E from the domain of a segment's gates, of which there is then one
/// at least.
fn kill_in(image: &mut ImageBuilder, segment: u8) {
    let (count, domain) = image.gates_of(segment);
    image.gates(segment, count.max(1), domain);
    take_from(image, segment);
}

/// Takes all gates of a segment away, and E from their domain.
fn close(rng: &mut Rng, image: &mut ImageBuilder) {
    let segment = gated(rng, image);
    take_from(image, segment);
    let (_, domain) = image.gates_of(segment);
    image.gates(segment, 0, domain);
}

/// The bytes of the chunks, with an end that has the fault asked for.
fn with_end(rng: &mut Rng, made: DeadGate, mut chunks: Vec<Vec<u8>>) -> Vec<u8> {
    let end = chunks.len() - 1;
    match made {
        DeadGate::BytesAfter => chunks.push(vec![0; rng.between(1, 40) as usize]),
        DeadGate::CutShort => chunks[end].truncate(rng.below(4) as usize),
        DeadGate::WrongKind => {
            let kind = rng.pick(&[0, 1, 2, 3, 5, 0x0104]);
            chunks[end] = chunk(kind, &vec![0; rng.below(3) as usize]);
        }
        DeadGate::WrongLength => chunks[end][rng.below(2) as usize] = rng.between(1, 255) as u8,
        _ => {}
    }
    let bytes_too = matches!(made, DeadGate::WrongKind | DeadGate::WrongLength);
    if bytes_too && rng.chance(50) {
        chunks.push(vec![0; rng.between(1, 300) as usize]);
    }
    chunks.concat()
}
