//! Texts of all kinds: none stops the tool.

mod common;

use common::{around, read, REST};
use generator::Rng;

#[test]
fn bytes_that_are_no_text() {
    let error = text::assemble_bytes(b"segment code\n# \xFF\nHALT").expect_err("no text");
    assert_eq!(error.to_string(), "line 2: not UTF-8 text");
    let image = text::assemble_bytes(around("HALT").as_bytes());
    assert_eq!(image, text::assemble(&around("HALT")));
}

/// Whatever the text, there is an image that the reader accepts, or a reason
/// at a line of the text.
fn is_answered(bytes: &[u8]) -> bool {
    let lines = 1 + bytes.iter().filter(|&&byte| byte == b'\n').count();
    match text::assemble_bytes(bytes) {
        Ok(image) => {
            read(&image);
            true
        }
        Err(error) => {
            assert!((1..=lines).contains(&error.line), "{error}");
            false
        }
    }
}

/// Parts that random texts are made of.
const PARTS: &[&str] = &[
    "segment",
    "gates",
    "into",
    "domain",
    "stack",
    "rights",
    "start",
    "list",
    "return",
    "argument",
    "tagged",
    "unset",
    "word",
    "zeros",
    "pointer",
    "mode",
    "HALT",
    "LOAD",
    "EPP",
    "LIT",
    "a",
    "b",
    "p3",
    "x",
    "y",
    "code",
    "only",
    "RW",
    "RWEG",
    "0",
    "1",
    "-1",
    "4095",
    "4096",
    "0xFFFFFFFF",
    "99999999999",
    "|",
    ",",
    "*",
    ":",
    "+",
    "-",
    "#",
    "\u{e9}",
    "\n",
    "\n",
    "\n",
];

#[test]
fn texts_of_random_parts() {
    for index in 0..20_000 {
        let mut rng = Rng::new(1, index);
        let count = rng.below(40);
        let parts: Vec<&str> = (0..count).map(|_| rng.pick(PARTS)).collect();
        let between = rng.pick(&[" ", "", "\t"]);
        let text = parts.join(between);
        is_answered(text.as_bytes());
        is_answered(format!("segment code\n{text}{REST}").as_bytes());
    }
}

#[test]
fn texts_with_damage() {
    let whole = include_bytes!("../../../examples/first_package.zk");
    let mut accepted = 0;
    for index in 0..5_000 {
        let mut rng = Rng::new(2, index);
        let mut bytes = whole.to_vec();
        for _ in 0..rng.between(1, 3) {
            let at = rng.below(bytes.len() as u32) as usize;
            match rng.below(4) {
                0 => bytes[at] = rng.next() as u8,
                1 => bytes[at] = b"0129|,*:+-# \nabRW"[rng.below(17) as usize],
                2 => drop(bytes.remove(at)),
                _ => bytes.truncate(at + 1),
            }
        }
        accepted += u32::from(is_answered(&bytes));
    }
    assert!((500..4_500).contains(&accepted), "{accepted} accepted");
}
