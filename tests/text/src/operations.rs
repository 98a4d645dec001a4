//! The thirteen mnemonics, the registers and the flags.

use assembler::{self as code, Code, E, G, R, W};

/// What follows a mnemonic, and how the word is made from it.
#[derive(Clone, Copy)]
pub enum Operation {
    /// Nothing: HALT.
    Bare(fn() -> Code),
    /// A number: LIT 5.
    Number(fn(i32) -> Code),
    /// An address: LOAD b|5.
    Address(fn(u32, i32) -> Code),
    /// A register and an address: EPP a,b|5.
    Register(fn(u32, u32, i32) -> Code),
}

/// All mnemonics, in the order of their opcodes.
pub const OPERATIONS: [(&str, Operation); 13] = [
    ("HALT", Operation::Bare(code::halt)),
    ("LOAD", Operation::Address(code::load)),
    ("STORE", Operation::Address(code::store)),
    ("ADD", Operation::Address(code::add)),
    ("SUB", Operation::Address(code::sub)),
    ("EPP", Operation::Register(code::epp)),
    ("SPP", Operation::Register(code::spp)),
    ("JUMP", Operation::Address(code::jump)),
    ("CALL", Operation::Address(code::call)),
    ("RET", Operation::Address(code::ret)),
    ("JZ", Operation::Address(code::jz)),
    ("JM", Operation::Address(code::jm)),
    ("LIT", Operation::Number(code::lit)),
];

/// The operation of a mnemonic.
pub fn operation(name: &str) -> Option<Operation> {
    let found = OPERATIONS.iter().find(|(mnemonic, _)| *mnemonic == name);
    found.map(|&(_, operation)| operation)
}

/// The names of the pointer registers; a, s and b are also p0, p1 and p2.
pub const REGISTERS: [&str; 8] = ["a", "s", "b", "p3", "p4", "p5", "p6", "p7"];

/// The number of a pointer register.
pub fn register(name: &str) -> Result<u32, String> {
    let number = match name {
        "p0" => Some(0),
        "p1" => Some(1),
        "p2" => Some(2),
        _ => REGISTERS.iter().position(|&register| register == name),
    };
    number
        .map(|number| number as u32)
        .ok_or_else(|| format!("'{name}' is not a register: a, s, b, p0 to p7"))
}

/// The flags and their letters.
pub const FLAGS: [(char, u8); 4] = [('R', R), ('W', W), ('E', E), ('G', G)];

/// A byte of flags from letters out of `allowed`, each at most once.
pub fn flags(letters: &str, allowed: &str) -> Result<u8, String> {
    let mut byte = 0;
    for letter in letters.chars() {
        let known = FLAGS.iter().find(|&&(flag, _)| flag == letter);
        match known {
            Some(&(_, bit)) if allowed.contains(letter) && byte & bit == 0 => byte |= bit,
            _ => {
                return Err(format!(
                    "'{letters}' is not a choice of the flags {allowed}"
                ))
            }
        }
    }
    Ok(byte)
}
