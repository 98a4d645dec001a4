//! Images with damaged bytes, most of which the reader refuses.

use crate::random::Rng;
use crate::{call_tree, dead_gates, templates, Made};
use assembler::{chunk, ImageBuilder, E};

/// An image with some damage, or with changed gates.
pub fn damaged(rng: &mut Rng) -> Made {
    match rng.below(9) {
        0 => dead_gates::build(rng),
        _ => damaged_bytes(rng).into(),
    }
}

/// An image with some damage.
fn damaged_bytes(rng: &mut Rng) -> Vec<u8> {
    let image = match rng.below(3) {
        0 => templates::counting_loop(rng),
        1 => templates::two_sources(rng),
        _ => call_tree::build(rng),
    };
    let mut bytes = image.bytes();
    match rng.below(8) {
        0 => bytes.truncate(rng.below(bytes.len() as u32) as usize),
        1 => return wrong_kind(rng, image.chunks()),
        2 => return wrong_length(rng, image.chunks()),
        3 => return wrong_field(rng, image),
        4 => return too_many_words(rng),
        5 => bytes.extend(vec![0; rng.between(1, 40) as usize]),
        6 => return later_byte(rng, image),
        _ => {
            for _ in 0..rng.between(1, 3) {
                let place = rng.below(bytes.len() as u32) as usize;
                bytes[place] = rng.next() as u8;
            }
        }
    }
    bytes
}

fn pick_chunk(rng: &mut Rng, chunks: &[Vec<u8>]) -> usize {
    rng.below(chunks.len() as u32) as usize
}

fn wrong_kind(rng: &mut Rng, mut chunks: Vec<Vec<u8>>) -> Vec<u8> {
    let index = pick_chunk(rng, &chunks);
    match rng.below(3) {
        0 => {
            chunks.remove(index);
        }
        1 => chunks.insert(index, chunks[index].clone()),
        _ => chunks[index][2 + rng.below(2) as usize] ^= 1 << rng.below(8),
    }
    chunks.concat()
}

fn wrong_length(rng: &mut Rng, mut chunks: Vec<Vec<u8>>) -> Vec<u8> {
    let index = pick_chunk(rng, &chunks);
    let mut body = chunks[index][4..].to_vec();
    let kind = u16::from_le_bytes([chunks[index][2], chunks[index][3]]);
    match rng.below(3) {
        0 => body.clear(),
        1 => body.push(0),
        _ => body.extend(vec![0; 16_400]),
    }
    chunks[index] = chunk(kind, &body);
    chunks.concat()
}

/// Bytes that hold fields and no words: all of kinds 1 and 3, four of kind 2.
fn field_bytes(chunks: &[Vec<u8>]) -> Vec<(usize, usize)> {
    let mut places = Vec::new();
    for (index, chunk) in chunks.iter().enumerate() {
        let fields = if chunk[2] == 2 { 4 } else { chunk.len() - 4 };
        places.extend((0..fields).map(|place| (index, 4 + place)));
    }
    places
}

fn wrong_field(rng: &mut Rng, image: ImageBuilder) -> Vec<u8> {
    let mut chunks = image.chunks();
    let (index, place) = rng.pick(&field_bytes(&chunks));
    chunks[index][place] = rng.pick(&[1, 9, 16, 17, 128, 255]);
    chunks.concat()
}

/// A field changed by a little, with more damage after it now and then.
fn later_byte(rng: &mut Rng, image: ImageBuilder) -> Vec<u8> {
    let mut chunks = image.chunks();
    let (index, place) = rng.pick(&field_bytes(&chunks));
    chunks[index][place] ^= 1 << rng.below(8);
    let mut bytes = chunks.concat();
    match rng.below(3) {
        0 => bytes.push(0),
        1 => bytes.truncate(rng.below(bytes.len() as u32) as usize),
        _ => {}
    }
    bytes
}

/// Segments that together have more than 8,192 words, or just not.
fn too_many_words(rng: &mut Rng) -> Vec<u8> {
    let mut image = ImageBuilder::new();
    let mut room = 8192 + rng.pick(&[0, 1, 1, 2, 100]);
    while room > 0 && image.segment_count() < 16 {
        let words = rng.between(2000, 4096).min(room);
        image.segment(vec![0u32; words as usize]);
        room -= words;
    }
    image.domain(0, &[(0, E)]);
    let mut bytes = image.bytes();
    if rng.chance(30) {
        bytes.truncate(rng.between(32_000, bytes.len() as u32) as usize);
    }
    bytes
}
