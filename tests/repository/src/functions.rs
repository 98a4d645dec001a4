//! The functions of a crate's `src/`, with their contracts.

use std::collections::BTreeMap;

use crate::files::File;
use crate::names::without_comments;

/// What may stand before `fn` beside `pub`, `pub(crate)` and the like.
const MARKS: [&str; 4] = ["extern", "\"C\"", "const", "unsafe"];

pub struct Function {
    pub file: String,
    pub name: String,
    /// Whether another crate can call it.
    pub is_public: bool,
    pub requires: Vec<String>,
    pub ensures: Vec<String>,
}

impl Function {
    /// Where it stands, for a message.
    pub fn place(&self) -> String {
        format!("{}: {}", self.file, self.name)
    }

    pub fn contract(&self) -> String {
        [&self.requires[..], &self.ensures[..]].concat().join("\n")
    }
}

/// The text in the braces that a text begins with, and the text after them.
fn braces(text: &str) -> (&str, &str) {
    let mut depth = 0;
    for (at, c) in text.char_indices() {
        match c {
            '{' => depth += 1,
            '}' if depth == 1 => return (&text[1..at], &text[at + 1..]),
            '}' => depth -= 1,
            _ => {}
        }
    }
    (&text[1..], "")
}

/// The clauses in front of a body: the word of each, and the text in its braces.
fn clauses(mut head: &str) -> Vec<(&str, &str)> {
    let mut found = Vec::new();
    while let Some(at) = head.find('{') {
        let mut words = head[..at].split_whitespace();
        let Some(word) = words.find(|word| ["requires", "ensures"].contains(word)) else {
            break;
        };
        let (inside, after) = braces(&head[at..]);
        found.push((word, inside));
        head = after;
    }
    found
}

/// The name in a line that begins a function, and whether it is marked `pub`.
fn signature(line: &str) -> Option<(&str, bool)> {
    let (before, after) = line.trim_start().split_once("fn ")?;
    let mut marks = before.split_whitespace();
    let is_head = marks.all(|mark| mark.starts_with("pub") || MARKS.contains(&mark));
    let end = after.find(|c: char| !c.is_alphanumeric() && c != '_')?;
    is_head.then_some((&after[..end], before.starts_with("pub ")))
}

/// The functions in a text; `is_open` where other crates can name its module.
fn in_text(file: &File, is_open: bool) -> Vec<Function> {
    let text = without_comments(&file.text, "//");
    let mut found = Vec::new();
    let mut at = 0;
    for line in text.split_inclusive('\n') {
        if let Some((name, is_marked)) = signature(line) {
            let clauses = clauses(&text[at..]);
            let of = |word| {
                let texts = clauses.iter().filter(|(found, _)| *found == word);
                texts.map(|(_, text)| text.to_string()).collect()
            };
            found.push(Function {
                file: file.path.clone(),
                name: name.to_string(),
                is_public: is_marked && is_open,
                requires: of("requires"),
                ensures: of("ensures"),
            });
        }
        at += line.len();
    }
    found
}

/// The crate and the module of a file: `crates/words/src/bits.rt` is `words`, `bits`.
fn module(path: &str) -> (&str, &str) {
    let path = path.strip_prefix("crates/").unwrap_or(path);
    path.trim_end_matches(".rt")
        .split_once("/src/")
        .unwrap_or((path, ""))
}

/// Whether other crates can name a module: `pub mod` declares each on the way from `lib` to it.
fn is_open(texts: &BTreeMap<(&str, &str), &str>, of: &str, module: &str) -> bool {
    if module == "lib" {
        return true;
    }
    let (parent, name) = module.rsplit_once('/').unwrap_or(("lib", module));
    let declared = format!("pub mod {name};");
    let declares = |text: &&str| text.lines().any(|line| line.trim() == declared);
    texts.get(&(of, parent)).is_some_and(declares) && is_open(texts, of, parent)
}

/// The functions of all files, in order. Nothing of a program, which has no `lib`, is public.
pub fn functions(sources: &[File]) -> Vec<Function> {
    let texts = sources
        .iter()
        .map(|file| (module(&file.path), &file.text[..]));
    let texts = texts.collect();
    let open = |file: &File| {
        let (of, module) = module(&file.path);
        is_open(&texts, of, module)
    };
    sources
        .iter()
        .flat_map(|file| in_text(file, open(file)))
        .collect()
}
