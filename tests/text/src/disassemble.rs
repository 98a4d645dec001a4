//! An image as text. Segments are named s0, s1 and so on, domains d0, d1.

use std::fmt::Write;

use reference::image::{read_image, segment};
use reference::words::{Instruction, Mode, Opcode, Pointer};
use reference::{Machine, Refusal, MEMORY_WORDS};

use crate::operations::{FLAGS, OPERATIONS, REGISTERS};

/// From so many words of 0 on, one line tells how many there are.
const ZEROS: usize = 4;
/// The right to execute.
const EXECUTE: u8 = assembler::E;

/// The text of an image that the reader accepts; else its refusal.
pub fn disassemble(image: &[u8]) -> Result<String, Refusal> {
    let mut machine = Machine::default();
    let mut memory = vec![0; MEMORY_WORDS];
    read_image(image, &mut machine, &mut memory)?;
    let mut text = String::new();
    for number in 0..machine.segment_count {
        let words = segment(&machine, &memory, u32::from(number));
        segment_lines(&mut text, &machine, number, words);
    }
    for number in 0..machine.domain_count {
        domain_lines(&mut text, &machine, number);
    }
    let (domain, at) = (machine.start_domain, machine.start);
    put(
        &mut text,
        &format!("start d{domain} s{}|{}", at.segment, at.word),
    );
    Ok(text)
}

/// Adds a line.
fn put(text: &mut String, line: &str) {
    text.push_str(line);
    text.push('\n');
}

/// Adds a line for words, with a comment.
fn put_words(text: &mut String, line: &str, comment: &str) {
    // Writing to a string never fails.
    let _ = writeln!(text, "    {line:<24}# {comment}");
}

/// Adds a segment: its gates and its words.
fn segment_lines(text: &mut String, machine: &Machine, number: u8, words: &[u32]) {
    put(text, &format!("segment s{number}"));
    let row = machine.segments[usize::from(number)];
    if row.gate_count > 0 || row.gate_domain > 0 {
        let (count, domain) = (row.gate_count, row.gate_domain);
        put(text, &format!("    gates {count} into d{domain}"));
    }
    let rights = machine.domains.iter();
    let executed = rights.fold(0, |all, row| all | row.rights[usize::from(number)]) & EXECUTE != 0;
    let mut at = 0;
    while at < words.len() {
        let zeros = words[at..].iter().take_while(|&&word| word == 0).count();
        if zeros >= ZEROS {
            let last = at + zeros - 1;
            put_words(text, &format!("zeros {zeros}"), &format!("{at} to {last}"));
            at += zeros;
            continue;
        }
        word_line(text, machine, executed, at, words[at]);
        at += 1;
    }
    text.push('\n');
}

/// Adds a word: an instruction, if it is one and the segment is executed.
fn word_line(text: &mut String, machine: &Machine, executed: bool, at: usize, word: u32) {
    if let (true, Ok(instruction)) = (executed, Instruction::from_word(word)) {
        return put_words(text, &instruction_text(instruction), &at.to_string());
    }
    let mut comment = at.to_string();
    for reading in readings(machine, word) {
        comment.push_str(", or ");
        comment.push_str(&reading);
    }
    let number = if word < 0x1000 {
        format!("word {word}")
    } else {
        format!("word 0x{word:08X}")
    };
    put_words(text, &number, &comment);
}

/// What else a word can be written as: a pointer to an existing word, a mode.
fn readings(machine: &Machine, word: u32) -> Vec<String> {
    let mut readings = Vec::new();
    if let Ok(pointer) = Pointer::from_word(word) {
        let exists = pointer.word < machine.segments[usize::from(pointer.segment)].length;
        if exists && word >= 0x1000 {
            let kind = if pointer.tag { "tagged" } else { "pointer" };
            readings.push(format!("{kind} s{}|{}", pointer.segment, pointer.word));
        }
    }
    if let Ok(mode) = Mode::from_word(word, 0) {
        let flags = u8::from(mode.read) + 2 * u8::from(mode.write);
        readings.push(format!("mode {} {}", mode.length, letters(flags)));
    }
    readings
}

/// An instruction with its operands.
fn instruction_text(instruction: Instruction) -> String {
    let opcode = instruction.opcode;
    let mnemonic = OPERATIONS[opcode as usize].0;
    let base = REGISTERS[usize::from(instruction.base)];
    let indirect = if instruction.indirect { ",*" } else { "" };
    let offset = instruction.offset;
    let address = format!("{base}|{offset}{indirect}");
    match opcode {
        Opcode::Halt => mnemonic.to_string(),
        Opcode::Lit => format!("{mnemonic} {offset}"),
        Opcode::Epp | Opcode::Spp => {
            let register = REGISTERS[usize::from(instruction.register)];
            format!("{mnemonic} {register},{address}")
        }
        _ => format!("{mnemonic} {address}"),
    }
}

/// Adds a domain: its stack segment and its rights.
fn domain_lines(text: &mut String, machine: &Machine, number: u8) {
    let row = machine.domains[usize::from(number)];
    put(
        text,
        &format!("domain d{number} stack s{}", row.stack_segment),
    );
    for segment in 0..machine.segment_count {
        let rights = row.rights[usize::from(segment)];
        if rights != 0 {
            put(text, &format!("    rights s{segment} {}", letters(rights)));
        }
    }
    text.push('\n');
}

/// The letters of flags.
fn letters(flags: u8) -> String {
    let set = FLAGS.iter().filter(|(_, bit)| flags & bit != 0);
    set.map(|(letter, _)| letter).collect()
}
