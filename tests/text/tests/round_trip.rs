//! Text to image to text to image.

mod common;

use common::around;
use generator::Rng;

/// The text of an image must give the image again, and the same text.
fn comes_back(image: &[u8]) {
    let text = text::disassemble(image).expect("the reader accepts it");
    let again = text::assemble(&text).unwrap_or_else(|error| panic!("{error} in\n{text}"));
    assert_eq!(again, image, "{text}");
}

#[test]
fn generated_images() {
    for index in 0..2_000 {
        let image = generator::program(&mut Rng::new(1, index)).bytes();
        comes_back(&image);
    }
}

#[test]
fn damaged_images() {
    let mut refused = 0;
    for index in 0..2_000 {
        let image = generator::damaged_image(1, index);
        match text::disassemble(&image) {
            Ok(_) => comes_back(&image),
            Err(refusal) => {
                refused += 1;
                let printed = reference::report::printed(&image);
                assert_eq!(printed, format!("refused {}\n", refusal.number()));
            }
        }
    }
    assert!(refused > 1_000, "{refused} refused");
}

/// Images whose only segment holds random words, most of them instructions.
#[test]
fn random_words() {
    for index in 0..2_000 {
        let mut rng = Rng::new(2, index);
        let count = rng.between(1, 60);
        let words: Vec<u32> = (0..count)
            .map(|_| match rng.below(4) {
                0 => 0,
                1 => rng.word(),
                _ => rng.below(14) << 24 | rng.below(0x8_0000) & rng.next() as u32,
            })
            .collect();
        let mut image = assembler::ImageBuilder::new();
        image.segment(words);
        image.domain(0, &[(0, rng.below(16) as u8)]);
        comes_back(&image.bytes());
    }
}

#[test]
fn a_text_comes_back() {
    let text = "\
segment s0
    gates 1 into d1
    EPP p3,a|3,*            # 0
    LOAD b|-1               # 1
    LIT -1                  # 2
    word 5                  # 3
    HALT                    # 4

segment s1
    word 0                  # 0
    word 0x00001002         # 1, or pointer s1|2
    word 0x80000001         # 2, or tagged s0|1, or mode 1 W
    word 0xC0000002         # 3, or mode 2 RW
    zeros 4                 # 4 to 7
    word 0x00001008         # 8, or pointer s1|8
    word 0x0000100A         # 9

domain d0 stack s1
    rights s0 E
    rights s1 RW

domain d1 stack s0
    rights s0 RWEG

start d1 s0|4000
";
    let image = text::assemble(text).expect("a good text");
    assert_eq!(text::disassemble(&image).expect("a good image"), text);
    comes_back(&image);
}

#[test]
fn the_papers_image() {
    let image = [
        0x08, 0x00, 0x01, 0x00, 0x01, 0x01, 0x00, 0x00, 0x00, 0x00, 0x00, 0x00, //
        0x08, 0x00, 0x02, 0x00, 0x00, 0x00, 0x00, 0x00, 0x00, 0x00, 0x00, 0x00, //
        0x02, 0x00, 0x03, 0x00, 0x00, 0x04, //
        0x00, 0x00, 0x04, 0x00,
    ];
    assert_eq!(text::assemble(&around("HALT")), Ok(image.to_vec()));
    comes_back(&image);
}
