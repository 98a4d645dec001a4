//! Ten images, of which each prefix is read and each byte is changed.

use assembler::{add, halt, lit, pointer, store, ImageBuilder, A, B, E, G, R, W};

/// Images up to this length have each byte changed in every way.
const SHORT: usize = 400;

/// An image, and which of its bytes are no part of a word.
#[derive(Clone, Debug)]
pub struct Sample {
    pub bytes: Vec<u8>,
    is_field: Vec<bool>,
}

impl Sample {
    fn new(image: &ImageBuilder) -> Sample {
        let mut is_field = Vec::new();
        for chunk in image.chunks() {
            let fields = if chunk[2] == 2 { 8 } else { chunk.len() };
            is_field.extend((0..chunk.len()).map(|place| place < fields));
        }
        let bytes = image.bytes();
        Sample { bytes, is_field }
    }

    /// What the byte at a place is changed to: all other values in a short
    /// image, and in any if that is asked; else each bit of a field turned,
    /// and one other value of a byte in a word.
    pub fn changes(&self, place: usize, all: bool) -> Vec<u8> {
        let byte = self.bytes[place];
        if all || self.is_short() {
            (1..=255).map(|change| byte ^ change).collect()
        } else if self.is_field[place] {
            (0..8).map(|bit| byte ^ (1 << bit)).collect()
        } else {
            vec![byte ^ (1 + place % 255) as u8]
        }
    }

    pub fn is_short(&self) -> bool {
        self.bytes.len() <= SHORT
    }
}

/// All ten; the last is the longest that there is.
pub fn samples() -> Vec<Sample> {
    let images = [
        one_word(),
        two_segments(),
        of_sizes(&[1], 8),
        of_sizes(&[1; 16], 1),
        of_sizes(&[1, 2, 3, 4], 4),
        all_gates(),
        late_start(),
        of_sizes(&[4096], 1),
        of_sizes(&[4096, 4096], 2),
        of_sizes(&[512; 16], 8),
    ];
    images.iter().map(Sample::new).collect()
}

/// One segment of one word, one domain: HALT.
fn one_word() -> ImageBuilder {
    let mut image = ImageBuilder::new();
    image.segment([halt()]);
    image.domain(0, &[(0, E)]);
    image
}

fn two_segments() -> ImageBuilder {
    let mut image = ImageBuilder::new();
    image.segment([lit(5), store(B, 1), add(A, 0), halt()]);
    image.segment([11u32, 0xFFFF_FFFF]);
    image.gates(0, 3, 1);
    image.domain(1, &[(0, R | E), (1, R | W)]);
    image.domain(0, &[(1, R), (0, E | G)]);
    image.start(1, pointer(0, 3));
    image
}

/// Segments whose words are all gates.
fn all_gates() -> ImageBuilder {
    let mut image = of_sizes(&[3, 1, 2], 3);
    for segment in 0..3 {
        let words = image.words(segment).len() as u16;
        image.gates(segment, words, segment);
    }
    image
}

/// A start past the words of its segment.
fn late_start() -> ImageBuilder {
    let mut image = of_sizes(&[2, 5], 2);
    image.start(1, pointer(1, 4095));
    image
}

/// Segments of these sizes with words that all differ, and domains with
/// various rights and stack segments; the domain of a segment's gates has E.
fn of_sizes(sizes: &[u32], domains: u8) -> ImageBuilder {
    let mut image = ImageBuilder::new();
    let mut word = 0u32;
    for &size in sizes {
        let segment = image.segment((0..size).map(|_| {
            word = word.wrapping_add(0x9E37_79B9);
            word
        }));
        image.gates(segment, (size / 3) as u16, segment % domains);
    }
    let segments = sizes.len() as u8;
    for domain in 0..domains {
        let rights = (0..segments).map(|segment| {
            let executes = if segment % domains == domain { E } else { 0 };
            let various = (5 * domain + 3 * segment + 1) % 16;
            (segment, various | executes)
        });
        image.domain(domain % segments, &rights.collect::<Vec<_>>());
    }
    image.start(domains - 1, pointer(u32::from(segments) - 1, 0));
    image
}
