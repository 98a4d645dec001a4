//! The definitions in a file of `specs/`.

use crate::files::File;
use crate::names::{tokens, without_comments};

/// A definition, with the lines up to the next one.
pub struct Definition {
    pub file: String,
    /// Its module, as `words.specs.Bit`.
    pub module: String,
    pub name: String,
    /// The parameters of the blocks that it stands in.
    pub context: String,
    /// Its signature, without marks, and its clauses, fields or constructors.
    pub text: String,
    pub is_data: bool,
    indent: usize,
}

impl Definition {
    pub fn path(&self) -> String {
        format!("{}.{}", self.module, self.name)
    }

    pub fn crate_name(&self) -> &str {
        self.module.split('.').next().unwrap_or("")
    }

    pub fn file_name(&self) -> &str {
        self.file.rsplit('/').next().unwrap_or("")
    }

    /// Where it stands, for a message.
    pub fn place(&self) -> String {
        format!("{}: {}", self.file, self.name)
    }

    /// The names of a data type's constructors; several may stand before one type.
    pub fn constructors(&self) -> Vec<&str> {
        let lines = self.text.lines().skip(1).filter(|_| self.is_data);
        let names = lines.filter_map(|line| line.split_once(" : "));
        let names = names.filter(|(names, _)| !names.contains(['(', '{', '→']));
        names
            .flat_map(|(names, _)| names.split_whitespace())
            .collect()
    }

    /// Whether it names a proposition: its type is `Type 0` itself.
    pub fn is_proposition(&self) -> bool {
        let signature = self.text.lines().next().unwrap_or("");
        let stated = signature.split_once(" : ");
        stated.is_some_and(|(name, of)| name == self.name && of == "Type 0")
    }

    /// Whether it names a number and says no more.
    pub fn is_number(&self) -> bool {
        let tokens = tokens(&self.text);
        let [.., name, "=", value] = tokens[..] else {
            return false;
        };
        name == self.name && value.starts_with(|c: char| c.is_ascii_digit())
    }
}

/// The first line of a definition.
struct Head<'a> {
    name: &'a str,
    /// The line without marks.
    text: &'a str,
    /// Whether only a definition begins so; else it may be a field or a constructor.
    is_certain: bool,
    is_data: bool,
}

/// The definition that a line begins, if it is like the first line of one.
fn head(line: &str) -> Option<Head<'_>> {
    let (mut text, mut is_certain) = (line, false);
    while let Some((mark, rest)) = text.split_once(' ') {
        match mark {
            "abbrev" | "unfoldable" | "axiom" => is_certain = true,
            "pub" => {}
            _ => break,
        }
        text = rest;
    }
    let words = tokens(text);
    let (name, is_certain, is_data) = match words[..] {
        ["record", "{", ..] => return None,
        ["record", name, ..] => (name, true, false),
        ["data", name, ..] => (name, true, true),
        ["(" | "{", ..] => return None,
        [name, ":", ..] | [name, "{", _, "}", ":", ..] => (name, is_certain, false),
        _ => return None,
    };
    Some(Head {
        name,
        text,
        is_certain,
        is_data,
    })
}

/// Whether a line belongs to no definition.
fn stands_alone(line: &str) -> bool {
    let mut words = line.split_whitespace();
    let first = words.find(|word| !["pub", "unfoldable"].contains(word));
    first.is_some_and(|word| ["use", "mod", "infix", "infixl", "infixr", "mutual"].contains(&word))
}

/// What is read of a file so far.
struct Reader<'a> {
    file: &'a str,
    module: String,
    /// The blocks that a line stands in: indentation and parameters.
    blocks: Vec<(usize, &'a str)>,
    found: Vec<Definition>,
    /// Whether the last definition goes on.
    is_open: bool,
}

impl<'a> Reader<'a> {
    fn line(&mut self, line: &'a str) {
        let rest = line.trim_start();
        let indent = line.len() - rest.len();
        self.blocks.retain(|(before, _)| *before < indent);
        if rest.starts_with("module ") {
            self.blocks.push((indent, rest));
            self.is_open = false;
        } else if stands_alone(rest) {
            self.is_open = false;
        } else if let Some(head) = head(rest).filter(|head| self.begins(head, indent)) {
            self.begin(head, indent);
        } else if let Some(last) = self.found.last_mut().filter(|_| self.is_open) {
            last.text.push_str(line);
            last.text.push('\n');
        }
    }

    /// A line without a mark begins a definition unless it is a part of the last one.
    fn begins(&self, head: &Head, indent: usize) -> bool {
        let is_part = |last: &Definition| self.is_open && indent > last.indent;
        head.is_certain || !self.found.last().is_some_and(is_part)
    }

    fn begin(&mut self, head: Head, indent: usize) {
        let context: Vec<_> = self.blocks.iter().map(|(_, text)| *text).collect();
        self.found.push(Definition {
            file: self.file.to_string(),
            module: self.module.clone(),
            name: head.name.to_string(),
            context: context.join("\n"),
            text: format!("{}\n", head.text),
            is_data: head.is_data,
            indent,
        });
        self.is_open = true;
    }
}

/// The module of a file: `crates/words/specs/Bit.antt` is `words.specs.Bit`.
fn module(path: &str) -> String {
    let path = path.strip_prefix("crates/").unwrap_or(path);
    path.trim_end_matches(".antt").replace('/', ".")
}

/// The definitions of a file, in order.
pub fn definitions(file: &File) -> Vec<Definition> {
    let text = without_comments(&file.text, "--");
    let mut reader = Reader {
        file: &file.path,
        module: module(&file.path),
        blocks: Vec::new(),
        found: Vec::new(),
        is_open: false,
    };
    let lines = text.lines().filter(|line| !line.trim().is_empty());
    lines.for_each(|line| reader.line(line));
    reader.found
}
