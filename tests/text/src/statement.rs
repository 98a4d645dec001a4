//! One line of the text, names still open.

use crate::operations::{flags, operation, register, Operation};
use crate::tokens::{Token, Tokens};

/// Most words of a segment.
pub const SEGMENT_WORDS: u32 = 4096;

/// A number, or a label's word number plus a number.
#[derive(Clone, Copy, Debug)]
pub struct Offset<'a> {
    pub label: Option<&'a str>,
    pub plus: i64,
}

/// A place: segment and word.
#[derive(Clone, Copy, Debug)]
pub struct Place<'a> {
    pub segment: &'a str,
    pub word: Offset<'a>,
}

/// A word of a segment.
#[derive(Clone, Copy)]
pub enum Item<'a> {
    /// A plain number.
    Number(u32),
    /// An instruction.
    Instruction {
        operation: Operation,
        register: u32,
        base: u32,
        offset: Offset<'a>,
        indirect: bool,
    },
    /// A pointer word to a place from which so many words are meant.
    Pointer {
        tag: bool,
        place: Place<'a>,
        length: u32,
    },
}

/// What a line says.
pub enum Statement<'a> {
    Segment(&'a str),
    Gates { count: u32, domain: &'a str },
    Domain { name: &'a str, stack: &'a str },
    Rights { segment: &'a str, flags: u8 },
    Start { domain: &'a str, place: Place<'a> },
    Words(Vec<Item<'a>>),
    List(Place<'a>),
    Argument { pointer: Item<'a>, mode: u32 },
}

/// The statement of a line whose label is already taken.
pub fn statement<'a>(tokens: &mut Tokens<'a>) -> Result<Statement<'a>, String> {
    let first = tokens.name("an instruction or a word of the text form")?;
    let statement = match first {
        "segment" => Statement::Segment(tokens.name("the segment's name")?),
        "gates" => gates(tokens)?,
        "domain" => domain(tokens)?,
        "rights" => Statement::Rights {
            segment: tokens.name("a segment")?,
            flags: flags(tokens.name("flags")?, "RWEG")?,
        },
        "start" => Statement::Start {
            domain: tokens.name("a domain")?,
            place: place(tokens)?,
        },
        "list" => {
            tokens.keyword("return")?;
            Statement::List(place(tokens)?)
        }
        "argument" => argument(tokens)?,
        _ => Statement::Words(words(first, tokens)?),
    };
    tokens.end()?;
    Ok(statement)
}

/// `gates COUNT into DOMAIN`.
fn gates<'a>(tokens: &mut Tokens<'a>) -> Result<Statement<'a>, String> {
    let count = tokens.number()?;
    tokens.keyword("into")?;
    let domain = tokens.name("a domain")?;
    Ok(Statement::Gates { count, domain })
}

/// `domain NAME stack SEGMENT`.
fn domain<'a>(tokens: &mut Tokens<'a>) -> Result<Statement<'a>, String> {
    let name = tokens.name("the domain's name")?;
    tokens.keyword("stack")?;
    let stack = tokens.name("a segment")?;
    Ok(Statement::Domain { name, stack })
}

/// `argument PLACE LENGTH FLAGS`; `tagged PLACE` or `unset` instead of the
/// place.
fn argument<'a>(tokens: &mut Tokens<'a>) -> Result<Statement<'a>, String> {
    let is_place = tokens.peek(1) == Some(Token::Sign('|'));
    let word = match tokens.peek(0) {
        Some(Token::Name(word)) if !is_place => word,
        _ => "",
    };
    if matches!(word, "tagged" | "unset") {
        tokens.skip();
    }
    let place = match word {
        "unset" => None,
        _ => Some(place(tokens)?),
    };
    let (length, mode) = mode(tokens)?;
    let pointer = match place {
        None => Item::Number(0),
        Some(place) => Item::Pointer {
            tag: word == "tagged",
            place,
            length,
        },
    };
    Ok(Statement::Argument { pointer, mode })
}

/// The words that a line makes.
fn words<'a>(first: &'a str, tokens: &mut Tokens<'a>) -> Result<Vec<Item<'a>>, String> {
    match first {
        "word" => numbers(tokens),
        "zeros" => {
            let count = in_range("zeros", tokens.number()?, 1, SEGMENT_WORDS)?;
            Ok(vec![Item::Number(0); count as usize])
        }
        "pointer" | "tagged" => {
            let tag = first == "tagged";
            let place = place(tokens)?;
            let length = 1;
            Ok(vec![Item::Pointer { tag, place, length }])
        }
        "mode" => Ok(vec![Item::Number(mode(tokens)?.1)]),
        _ => Ok(vec![instruction(first, tokens)?]),
    }
}

/// One number or more, as words.
fn numbers<'a>(tokens: &mut Tokens<'a>) -> Result<Vec<Item<'a>>, String> {
    let mut items = Vec::new();
    while items.is_empty() || !tokens.is_empty() {
        let number = tokens.signed()?;
        if number < i64::from(i32::MIN) {
            return Err(format!("'{number}' does not fit in 32 bits"));
        }
        items.push(Item::Number(number as u32));
    }
    Ok(items)
}

/// Length and flags: the length and the mode word.
fn mode(tokens: &mut Tokens) -> Result<(u32, u32), String> {
    let length = in_range("the length", tokens.number()?, 1, SEGMENT_WORDS)?;
    let flags = flags(tokens.name("flags")?, "RW")?;
    Ok((length, assembler::mode(length, flags)))
}

/// A mnemonic and its operands.
fn instruction<'a>(mnemonic: &str, tokens: &mut Tokens<'a>) -> Result<Item<'a>, String> {
    let operation = operation(mnemonic).ok_or_else(|| unknown(mnemonic))?;
    let mut target = 0;
    let mut address = (0, Offset::number(0), false);
    match operation {
        Operation::Bare(_) => {}
        Operation::Number(_) => address.1 = offset(tokens, "a number")?,
        Operation::Address(_) => address = self::address(tokens)?,
        Operation::Register(_) => {
            target = register(tokens.name("a register")?)?;
            tokens.sign(',')?;
            address = self::address(tokens)?;
        }
    }
    let (base, offset, indirect) = address;
    Ok(Item::Instruction {
        operation,
        register: target,
        base,
        offset,
        indirect,
    })
}

/// The reason for a first word that is none of the text form.
fn unknown(word: &str) -> String {
    let capitals = word.to_ascii_uppercase();
    match operation(&capitals) {
        Some(_) => format!("unknown word '{word}': the instruction is written {capitals}"),
        None => format!("unknown word '{word}'"),
    }
}

/// `BASE|OFFSET` or `BASE|OFFSET,*`: base register, offset, indirect.
fn address<'a>(tokens: &mut Tokens<'a>) -> Result<(u32, Offset<'a>, bool), String> {
    let base = register(tokens.name("a register")?)?;
    tokens.sign('|')?;
    let offset = offset(tokens, "a number or a label")?;
    let indirect = tokens.take_sign(',');
    if indirect {
        tokens.sign('*')?;
    }
    Ok((base, offset, indirect))
}

/// `SEGMENT|WORD`.
fn place<'a>(tokens: &mut Tokens<'a>) -> Result<Place<'a>, String> {
    let segment = tokens.name("a segment")?;
    tokens.sign('|')?;
    let word = offset(tokens, "a number or a label")?;
    Ok(Place { segment, word })
}

impl<'a> Offset<'a> {
    fn number(plus: i64) -> Offset<'a> {
        Offset { label: None, plus }
    }
}

/// A number, a label, or a label with a number added or taken off.
fn offset<'a>(tokens: &mut Tokens<'a>, what: &str) -> Result<Offset<'a>, String> {
    match tokens.peek(0) {
        Some(Token::Name(label)) => {
            tokens.skip();
            let mut plus = 0;
            if tokens.take_sign('+') {
                plus = i64::from(tokens.number()?);
            } else if tokens.take_sign('-') {
                plus = -i64::from(tokens.number()?);
            }
            let label = Some(label);
            Ok(Offset { label, plus })
        }
        Some(Token::Number(_) | Token::Sign('-')) => Ok(Offset::number(tokens.signed()?)),
        _ => Err(tokens.expected(what)),
    }
}

/// The number, if it is in its range.
fn in_range(what: &str, number: u32, first: u32, last: u32) -> Result<u32, String> {
    if (first..=last).contains(&number) {
        return Ok(number);
    }
    Err(format!("{what} must be {first} to {last}, not {number}"))
}
