//! Builds images in code: instructions, pointer words, mode words, argument
//! lists and the image itself. The encodings are written out here by hand.

mod image;
mod list;
mod program;

pub use image::{chunk, ImageBuilder};
pub use list::{mode, ArgumentList};
pub use program::Program;

/// Pointer register a.
pub const A: u32 = 0;
/// Pointer register s.
pub const S: u32 = 1;
/// Pointer register b.
pub const B: u32 = 2;

/// Right to read.
pub const R: u8 = 1;
/// Right to write.
pub const W: u8 = 2;
/// Right to execute.
pub const E: u8 = 4;
/// Right to call a gate.
pub const G: u8 = 8;

/// An instruction word under construction.
#[derive(Clone, Copy, Debug, PartialEq, Eq)]
pub struct Code(pub u32);

impl Code {
    /// The same instruction with the indirect bit on.
    pub fn indirect(self) -> Code {
        Code(self.0 + 0x8000)
    }

    /// The instruction word.
    pub fn word(self) -> u32 {
        self.0
    }
}

impl From<Code> for u32 {
    fn from(code: Code) -> u32 {
        code.0
    }
}

/// An instruction from its parts.
fn code(opcode: u32, register: u32, base: u32, offset: i32) -> Code {
    assert!(register < 8 && base < 8, "no such register");
    assert!((-2048..=2047).contains(&offset), "offset out of range");
    let low = (offset + 4096) as u32 % 4096;
    Code(opcode * 0x100_0000 + register * 0x1_0000 + base * 0x1000 + low)
}

/// HALT.
pub fn halt() -> Code {
    code(0, 0, 0, 0)
}

/// LOAD base|offset.
pub fn load(base: u32, offset: i32) -> Code {
    code(1, 0, base, offset)
}

/// STORE base|offset.
pub fn store(base: u32, offset: i32) -> Code {
    code(2, 0, base, offset)
}

/// ADD base|offset.
pub fn add(base: u32, offset: i32) -> Code {
    code(3, 0, base, offset)
}

/// SUB base|offset.
pub fn sub(base: u32, offset: i32) -> Code {
    code(4, 0, base, offset)
}

/// EPP register,base|offset.
pub fn epp(register: u32, base: u32, offset: i32) -> Code {
    code(5, register, base, offset)
}

/// SPP register,base|offset.
pub fn spp(register: u32, base: u32, offset: i32) -> Code {
    code(6, register, base, offset)
}

/// JUMP base|offset.
pub fn jump(base: u32, offset: i32) -> Code {
    code(7, 0, base, offset)
}

/// CALL base|offset.
pub fn call(base: u32, offset: i32) -> Code {
    code(8, 0, base, offset)
}

/// RET base|offset.
pub fn ret(base: u32, offset: i32) -> Code {
    code(9, 0, base, offset)
}

/// JZ base|offset.
pub fn jz(base: u32, offset: i32) -> Code {
    code(10, 0, base, offset)
}

/// JM base|offset.
pub fn jm(base: u32, offset: i32) -> Code {
    code(11, 0, base, offset)
}

/// LIT offset.
pub fn lit(offset: i32) -> Code {
    code(12, 0, 0, offset)
}

/// An untagged pointer word.
pub fn pointer(segment: u32, word: u32) -> u32 {
    assert!(segment < 16 && word < 4096, "no such pointer");
    segment * 4096 + word
}

/// A tagged pointer word.
pub fn tagged(segment: u32, word: u32) -> u32 {
    pointer(segment, word) + 0x8000_0000
}
