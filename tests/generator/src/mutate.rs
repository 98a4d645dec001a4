//! Small changes to a finished image; the reader still accepts it.

use crate::random::Rng;
use assembler::{pointer, ImageBuilder, E};

/// Makes one to three changes.
pub fn mutate(rng: &mut Rng, image: &mut ImageBuilder) {
    for _ in 0..rng.between(1, 3) {
        match rng.below(6) {
            0 | 1 => change_word(rng, image, |rng, word| word ^ 1 << rng.below(32)),
            2 => change_word(rng, image, |rng, word| word & !0xFFF | rng.below(4096)),
            3 => change_word(rng, image, |rng, _| rng.word()),
            4 => {
                let domain = rng.below(image.domain_count() as u32) as u8;
                let segment = rng.below(image.segment_count() as u32) as u8;
                image.rights(domain, segment, rng.below(16) as u8);
                keep_sound(rng, image, segment);
            }
            _ => {
                let segment = rng.below(image.segment_count() as u32) as u8;
                let words = image.words(segment).len() as u32;
                let domain = rng.below(image.domain_count() as u32) as u8;
                image.gates(segment, rng.below(words + 1) as u16, domain);
                keep_sound(rng, image, segment);
            }
        }
    }
}

/// Gives the domain of a segment's gates E, or now and then takes the gates
/// away if it lacks it.
fn keep_sound(rng: &mut Rng, image: &mut ImageBuilder, segment: u8) {
    let (count, domain) = image.gates_of(segment);
    let rights = image.rights_of(domain, segment);
    if count == 0 || rights & E != 0 {
        return;
    }
    match rng.chance(25) {
        true => image.gates(segment, 0, domain),
        false => image.rights(domain, segment, rights | E),
    };
}

/// Makes the start a word that the start domain may not execute, if there is
/// one for some domain.
pub fn start_without_execute(rng: &mut Rng, image: &mut ImageBuilder) {
    let segments = image.segment_count() as u8;
    let mut lacking = Vec::new();
    for domain in 0..image.domain_count() as u8 {
        let lacks = |&segment: &u8| image.rights_of(domain, segment) & E == 0;
        lacking.extend((0..segments).filter(lacks).map(|segment| (domain, segment)));
    }
    if lacking.is_empty() {
        return;
    }
    let (domain, segment) = rng.pick(&lacking);
    let word = rng.below(image.words(segment).len() as u32);
    image.start(domain, pointer(u32::from(segment), word));
}

/// Changes one word of a segment.
fn change_word(rng: &mut Rng, image: &mut ImageBuilder, change: impl Fn(&mut Rng, u32) -> u32) {
    let segment = rng.below(image.segment_count() as u32) as u8;
    let place = rng.below(image.words(segment).len() as u32);
    let word = image.words(segment)[place as usize];
    image.set(segment, place, change(rng, word));
}
