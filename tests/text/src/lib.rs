//! A readable text form of images: text to image, and image to text. The
//! form is described in the README of the examples.

mod disassemble;
mod draft;
mod encode;
mod error;
mod operations;
pub mod program;
mod statement;
mod tokens;

pub use disassemble::disassemble;
pub use error::Error;

/// The image that a text describes. The reader accepts every such image.
pub fn assemble(text: &str) -> Result<Vec<u8>, Error> {
    let mut draft = draft::Draft::default();
    let mut last = 1;
    for (index, line) in text.lines().enumerate() {
        last = index + 1;
        let added = draft.add_line(last, line);
        added.map_err(|reason| Error { line: last, reason })?;
    }
    encode::image(&draft, last)
}

/// The image that a text describes, from the bytes of the text.
pub fn assemble_bytes(bytes: &[u8]) -> Result<Vec<u8>, Error> {
    match std::str::from_utf8(bytes) {
        Ok(text) => assemble(text),
        Err(error) => {
            let before = &bytes[..error.valid_up_to()];
            Err(Error {
                line: 1 + before.iter().filter(|&&byte| byte == b'\n').count(),
                reason: "not UTF-8 text".to_string(),
            })
        }
    }
}
