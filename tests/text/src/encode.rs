//! The names of a draft resolved, and its image.

use assembler::{pointer, tagged, ImageBuilder, E};

use crate::draft::Draft;
use crate::error::Error;
use crate::operations::Operation;
use crate::statement::{Item, Offset, Place, SEGMENT_WORDS};

/// The image of a draft; what is missing is reported at the last line.
pub fn image(draft: &Draft, last_line: usize) -> Result<Vec<u8>, Error> {
    let missing = |what: &str| Error {
        line: last_line,
        reason: format!("the text has no '{what}' line"),
    };
    if draft.segments.is_empty() {
        return Err(missing("segment"));
    }
    if draft.domains.is_empty() {
        return Err(missing("domain"));
    }
    let (line, domain, place) = draft.start.ok_or_else(|| missing("start"))?;
    let mut image = ImageBuilder::new();
    segments(draft, &mut image)?;
    domains(draft, &mut image)?;
    no_dead_gate(draft, &image)?;
    let domain = domain_number(draft, domain).map_err(at(line))?;
    let start = pointer_word(draft, false, place, 1).map_err(at(line))?;
    image.start(domain, start);
    Ok(image.bytes())
}

/// Puts a line to a reason.
fn at(line: usize) -> impl Fn(String) -> Error {
    move |reason| Error { line, reason }
}

/// Adds the segments to the image.
fn segments(draft: &Draft, image: &mut ImageBuilder) -> Result<(), Error> {
    for part in &draft.segments {
        if part.words.is_empty() {
            return Err(at(part.line)(format!(
                "segment '{}' has no words",
                part.name
            )));
        }
        let mut words = Vec::with_capacity(part.words.len());
        for &(line, item) in &part.words {
            words.push(word(draft, item).map_err(at(line))?);
        }
        let number = image.segment(words);
        if let Some((line, count, domain)) = part.gates {
            let domain = domain_number(draft, domain).map_err(at(line))?;
            if count as usize > part.words.len() {
                let length = part.words.len();
                let reason = format!(
                    "segment '{}' has fewer words ({length}) than gates ({count})",
                    part.name
                );
                return Err(at(line)(reason));
            }
            image.gates(number, count as u16, domain);
        }
    }
    Ok(())
}

/// Adds the domains to the image.
fn domains(draft: &Draft, image: &mut ImageBuilder) -> Result<(), Error> {
    for part in &draft.domains {
        let stack = segment_number(draft, part.stack).map_err(at(part.line))?;
        let mut rights = Vec::new();
        for &(line, segment, flags) in &part.rights {
            rights.push((segment_number(draft, segment).map_err(at(line))?, flags));
        }
        image.domain(stack, &rights);
    }
    Ok(())
}

/// Refuses gates into a domain that may not execute their segment.
fn no_dead_gate(draft: &Draft, image: &ImageBuilder) -> Result<(), Error> {
    for (number, part) in (0..).zip(&draft.segments) {
        let (count, domain) = image.gates_of(number);
        let dead = count > 0 && image.rights_of(domain, number) & E == 0;
        if let Some((line, _, domain)) = part.gates.filter(|_| dead) {
            let reason = format!(
                "segment '{}' has gates into domain '{domain}', which has no E on it",
                part.name
            );
            return Err(at(line)(reason));
        }
    }
    Ok(())
}

/// The number of a segment.
fn segment_number(draft: &Draft, name: &str) -> Result<u8, String> {
    let found = draft.segments.iter().position(|part| part.name == name);
    found
        .map(|index| index as u8)
        .ok_or_else(|| format!("no segment '{name}'"))
}

/// The number of a domain.
fn domain_number(draft: &Draft, name: &str) -> Result<u8, String> {
    let found = draft.domains.iter().position(|part| part.name == name);
    found
        .map(|index| index as u8)
        .ok_or_else(|| format!("no domain '{name}'"))
}

/// A word of a segment.
fn word(draft: &Draft, item: Item) -> Result<u32, String> {
    match item {
        Item::Number(number) => Ok(number),
        Item::Pointer { tag, place, length } => pointer_word(draft, tag, place, length),
        Item::Instruction {
            operation,
            register,
            base,
            offset,
            indirect,
        } => {
            let offset = instruction_offset(draft, offset)?;
            let code = match operation {
                Operation::Bare(make) => make(),
                Operation::Number(make) => make(offset),
                Operation::Address(make) => make(base, offset),
                Operation::Register(make) => make(register, base, offset),
            };
            Ok(if indirect { code.indirect() } else { code }.word())
        }
    }
}

/// The offset of an instruction.
fn instruction_offset(draft: &Draft, offset: Offset) -> Result<i32, String> {
    let number = number(draft, offset, None)?;
    if (-2048..=2047).contains(&number) {
        return Ok(number as i32);
    }
    Err(format!("the offset must be -2048 to 2047, not {number}"))
}

/// A pointer word to a place from which `length` words are meant.
fn pointer_word(draft: &Draft, tag: bool, place: Place, length: u32) -> Result<u32, String> {
    let segment = segment_number(draft, place.segment)?;
    let number = number(draft, place.word, Some(segment))?;
    let word = match u32::try_from(number) {
        Ok(word) if word < SEGMENT_WORDS => word,
        _ => return Err(format!("the word number must be 0 to 4095, not {number}")),
    };
    if word + length > SEGMENT_WORDS {
        return Err(format!("{length} words from word {word} pass word 4095"));
    }
    let make = if tag { tagged } else { pointer };
    Ok(make(u32::from(segment), word))
}

/// The number that an offset comes to. Its label must lie in the segment, if
/// one is named.
fn number(draft: &Draft, offset: Offset, segment: Option<u8>) -> Result<i64, String> {
    let Some(name) = offset.label else {
        return Ok(offset.plus);
    };
    let Some(label) = draft.labels.get(name) else {
        return Err(format!("no label '{name}'"));
    };
    if segment.is_some_and(|segment| usize::from(segment) != label.segment) {
        let other = draft.segments[label.segment].name;
        return Err(format!("label '{name}' is in segment '{other}'"));
    }
    Ok(label.word as i64 + offset.plus)
}
