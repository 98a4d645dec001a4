//! Words taken apart: pointer words, instruction words and mode words.

use crate::numbers::Fault;
use crate::SEGMENT_WORDS;

/// A pointer: tag, segment number 0 to 15, word number 0 to 4,095.
#[derive(Clone, Copy, Debug, Default, PartialEq, Eq)]
pub struct Pointer {
    pub tag: bool,
    pub segment: u8,
    pub word: u16,
}

impl Pointer {
    /// An untagged pointer.
    pub fn untagged(segment: u8, word: u16) -> Pointer {
        Pointer {
            tag: false,
            segment,
            word,
        }
    }

    /// A pointer word taken apart; 26 if bits 16 to 30 are not 0.
    #[inline(always)]
    pub fn from_word(word: u32) -> Result<Pointer, Fault> {
        if word & 0x7FFF_0000 != 0 {
            return Err(Fault::PointerBits);
        }
        Ok(Pointer {
            tag: word >> 31 == 1,
            segment: (word >> 12 & 0xF) as u8,
            word: (word & 0xFFF) as u16,
        })
    }

    /// The pointer word; bits outside the fields' widths are dropped.
    #[inline(always)]
    pub fn to_word(self) -> u32 {
        let segment = u32::from(self.segment) & 0xF;
        let word = u32::from(self.word) & 0xFFF;
        u32::from(self.tag) << 31 | segment << 12 | word
    }

    /// The pointer moved by an offset; 23 if that leaves 0 to 4,095.
    #[inline(always)]
    pub fn plus(self, offset: i16) -> Result<Pointer, Fault> {
        let word = i32::from(self.word) + i32::from(offset);
        if !(0..i32::from(SEGMENT_WORDS)).contains(&word) {
            return Err(Fault::WordNumber);
        }
        Ok(Pointer {
            word: word as u16,
            ..self
        })
    }

    /// Whether two pointers name the same word, tags aside.
    pub fn same_place(self, other: Pointer) -> bool {
        self.segment == other.segment && self.word == other.word
    }
}

/// The thirteen operations, in the order of their opcodes.
#[derive(Clone, Copy, Debug, PartialEq, Eq)]
#[repr(u8)]
pub enum Opcode {
    Halt,
    Load,
    Store,
    Add,
    Sub,
    Epp,
    Spp,
    Jump,
    Call,
    Ret,
    Jz,
    Jm,
    Lit,
}

/// All operations; the index is the opcode.
pub const OPCODES: [Opcode; 13] = [
    Opcode::Halt,
    Opcode::Load,
    Opcode::Store,
    Opcode::Add,
    Opcode::Sub,
    Opcode::Epp,
    Opcode::Spp,
    Opcode::Jump,
    Opcode::Call,
    Opcode::Ret,
    Opcode::Jz,
    Opcode::Jm,
    Opcode::Lit,
];

/// Zero mask of an operation without operands.
const MASK_BARE: u32 = 0x00FF_FFFF;
/// Zero mask of an operation with an address.
const MASK_ADDRESS: u32 = 0x00FF_0000;
/// Zero mask of an operation with a register and an address.
const MASK_REGISTER: u32 = 0x00F8_0000;
/// Zero mask of an operation with an offset alone.
const MASK_OFFSET: u32 = 0x00FF_F000;

impl Opcode {
    /// The bits that must be 0 in an instruction word of this operation.
    #[inline(always)]
    pub fn zero_mask(self) -> u32 {
        match self {
            Opcode::Halt => MASK_BARE,
            Opcode::Epp | Opcode::Spp => MASK_REGISTER,
            Opcode::Lit => MASK_OFFSET,
            _ => MASK_ADDRESS,
        }
    }
}

/// An instruction word taken apart.
#[derive(Clone, Copy, Debug, PartialEq, Eq)]
pub struct Instruction {
    pub opcode: Opcode,
    pub register: u8,
    pub base: u8,
    pub indirect: bool,
    pub offset: i16,
}

impl Instruction {
    /// An instruction word taken apart; 27 if it is none.
    #[inline(always)]
    pub fn from_word(word: u32) -> Result<Instruction, Fault> {
        let opcode = match OPCODES.get((word >> 24) as usize) {
            Some(&opcode) if word & opcode.zero_mask() == 0 => opcode,
            _ => return Err(Fault::BadInstruction),
        };
        Ok(Instruction {
            opcode,
            register: (word >> 16 & 7) as u8,
            base: (word >> 12 & 7) as u8,
            indirect: word >> 15 & 1 == 1,
            offset: signed_offset(word),
        })
    }
}

/// Bits 0 to 11 as a number from -2,048 to 2,047.
#[inline(always)]
pub fn signed_offset(word: u32) -> i16 {
    ((word << 4) as u16 as i16) >> 4
}

/// What an argument asks for: a length and at least one flag.
#[derive(Clone, Copy, Debug, PartialEq, Eq)]
pub struct Mode {
    pub length: u16,
    pub read: bool,
    pub write: bool,
}

impl Mode {
    /// The mode word of an argument that begins at word number `first`; 30 if
    /// it is bad.
    pub fn from_word(word: u32, first: u16) -> Result<Mode, Fault> {
        let length = (word & 0x1FFF) as u16;
        let mode = Mode {
            length,
            read: word >> 30 & 1 == 1,
            write: word >> 31 & 1 == 1,
        };
        let spare_bits = word & 0x3FFF_E000;
        let end = u32::from(first) + u32::from(length);
        let flagged = mode.read || mode.write;
        if spare_bits != 0 || length == 0 || !flagged || end > u32::from(SEGMENT_WORDS) {
            return Err(Fault::BadList);
        }
        Ok(mode)
    }
}
