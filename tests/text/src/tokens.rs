//! A line taken apart into names, numbers and signs.

use std::fmt;

/// Signs that mean something.
const SIGNS: &str = "|,*:+-";

/// A part of a line.
#[derive(Clone, Copy, Debug, PartialEq, Eq)]
pub enum Token<'a> {
    Name(&'a str),
    Number(u32),
    Sign(char),
}

impl fmt::Display for Token<'_> {
    fn fmt(&self, out: &mut fmt::Formatter) -> fmt::Result {
        match self {
            Token::Name(name) => write!(out, "'{name}'"),
            Token::Number(number) => write!(out, "'{number}'"),
            Token::Sign(sign) => write!(out, "'{sign}'"),
        }
    }
}

/// The tokens of a line, and which is next.
pub struct Tokens<'a> {
    all: Vec<Token<'a>>,
    next: usize,
}

impl<'a> Tokens<'a> {
    /// Takes a line apart; a `#` begins a comment.
    pub fn new(line: &'a str) -> Result<Tokens<'a>, String> {
        let mut rest = line.split('#').next().unwrap_or("").trim_start();
        let mut all = Vec::new();
        while let Some(first) = rest.chars().next() {
            let length = rest.find(|c| !is_name_part(c)).unwrap_or(rest.len());
            if length > 0 {
                all.push(name_or_number(&rest[..length])?);
                rest = rest[length..].trim_start();
            } else if SIGNS.contains(first) {
                all.push(Token::Sign(first));
                rest = rest[1..].trim_start();
            } else {
                return Err(format!("'{}' means nothing here", first.escape_debug()));
            }
        }
        Ok(Tokens { all, next: 0 })
    }

    /// The token `ahead` places after the next one.
    pub fn peek(&self, ahead: usize) -> Option<Token<'a>> {
        self.all.get(self.next + ahead).copied()
    }

    /// Whether no token is left.
    pub fn is_empty(&self) -> bool {
        self.next >= self.all.len()
    }

    /// Goes past the next token.
    pub fn skip(&mut self) {
        self.next += 1;
    }

    /// Goes past a sign, if it is the next token.
    pub fn take_sign(&mut self, sign: char) -> bool {
        let found = self.peek(0) == Some(Token::Sign(sign));
        if found {
            self.skip();
        }
        found
    }

    /// Goes past a sign that must be next.
    pub fn sign(&mut self, sign: char) -> Result<(), String> {
        if self.take_sign(sign) {
            return Ok(());
        }
        Err(self.expected(&format!("'{sign}'")))
    }

    /// A name, which must be next; `what` it stands for.
    pub fn name(&mut self, what: &str) -> Result<&'a str, String> {
        match self.peek(0) {
            Some(Token::Name(name)) => {
                self.skip();
                Ok(name)
            }
            _ => Err(self.expected(what)),
        }
    }

    /// A word of the text form, which must be next.
    pub fn keyword(&mut self, keyword: &str) -> Result<(), String> {
        if self.peek(0) == Some(Token::Name(keyword)) {
            self.skip();
            return Ok(());
        }
        Err(self.expected(&format!("'{keyword}'")))
    }

    /// A number without a sign, which must be next.
    pub fn number(&mut self) -> Result<u32, String> {
        match self.peek(0) {
            Some(Token::Number(number)) => {
                self.skip();
                Ok(number)
            }
            _ => Err(self.expected("a number")),
        }
    }

    /// A number with or without a minus, which must be next.
    pub fn signed(&mut self) -> Result<i64, String> {
        let minus = self.take_sign('-');
        let number = i64::from(self.number()?);
        Ok(if minus { -number } else { number })
    }

    /// Nothing may be left.
    pub fn end(&self) -> Result<(), String> {
        match self.peek(0) {
            None => Ok(()),
            Some(_) => Err(self.expected("the end of the line")),
        }
    }

    /// The reason where something else than the next token is due.
    pub fn expected(&self, what: &str) -> String {
        match self.peek(0) {
            Some(token) => format!("expected {what}, found {token}"),
            None => format!("expected {what}, found the end of the line"),
        }
    }
}

/// Whether a character can be in a name or a number.
fn is_name_part(c: char) -> bool {
    c.is_ascii_alphanumeric() || c == '_'
}

/// Letters and digits: a number if the first is a digit.
fn name_or_number(part: &str) -> Result<Token<'_>, String> {
    if !part.starts_with(|c: char| c.is_ascii_digit()) {
        return Ok(Token::Name(part));
    }
    let (digits, radix) = match part.strip_prefix("0x") {
        Some(digits) => (digits, 16),
        None => (part, 10),
    };
    if digits.is_empty() || !digits.chars().all(|c| c.is_digit(radix)) {
        return Err(format!("'{part}' is not a number"));
    }
    let number = u32::from_str_radix(digits, radix);
    number
        .map(Token::Number)
        .map_err(|_| format!("'{part}' does not fit in 32 bits"))
}
