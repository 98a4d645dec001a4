//! The names that a text writes, and what its `use` lines make of them.

use std::collections::BTreeMap;

const SIGNS: &str = "(){}[],;⌜⌝\"";

/// A text without its comments, which begin with `mark`.
pub fn without_comments(text: &str, mark: &str) -> String {
    let lines = text.lines().map(|line| before_comment(line, mark));
    lines.map(|line| format!("{}\n", line.trim_end())).collect()
}

fn before_comment<'a>(line: &'a str, mark: &str) -> &'a str {
    let (mut quoted, mut before) = (false, ' ');
    for (at, c) in line.char_indices() {
        if !quoted && before.is_whitespace() && line[at..].starts_with(mark) {
            return &line[..at];
        }
        if c == '"' && before != '\\' {
            quoted = !quoted;
        }
        before = c;
    }
    line
}

/// The words and signs of a text in order; a quoted text is one of them.
pub fn tokens(text: &str) -> Vec<&str> {
    let mut found = Vec::new();
    let mut rest = text.trim_start();
    while let Some(first) = rest.chars().next() {
        let length = match first {
            '"' => quoted_length(rest),
            sign if SIGNS.contains(sign) => sign.len_utf8(),
            _ => word_length(rest),
        };
        found.push(&rest[..length]);
        rest = rest[length..].trim_start();
    }
    found
}

fn word_length(text: &str) -> usize {
    let end = text.find(|c: char| c.is_whitespace() || SIGNS.contains(c));
    end.unwrap_or(text.len())
}

fn quoted_length(text: &str) -> usize {
    let mut quotes = text.match_indices('"').skip(1);
    let end = quotes.find(|(at, _)| !text[..*at].ends_with('\\'));
    end.map_or(text.len(), |(at, _)| at + 1)
}

/// The part by which a name is met in a text: `◌>>=◌` by `>>=`, `if◌then◌else◌` by `if`.
fn first_part(name: &str) -> &str {
    let mut parts = name.split('◌').filter(|part| !part.is_empty());
    parts.next().unwrap_or(name)
}

/// A path from a crate's name on: `Rattle.words.specs.Bit` is `words.specs.Bit`.
fn whole(path: &str) -> String {
    path.strip_prefix("Rattle.").unwrap_or(path).to_string()
}

/// The path in a `use` line of a definition or a contract; code's own lines have `::`.
fn used(line: &str) -> Option<&str> {
    let mut line = line.trim().trim_end_matches(';');
    for mark in ["unfoldable ", "pub ", "ghost "] {
        line = line.strip_prefix(mark).unwrap_or(line);
    }
    let path = line.strip_prefix("use ")?;
    (!path.contains("::")).then_some(path)
}

/// What the names of a file stand for: items and modules by their paths.
#[derive(Default)]
pub struct Names {
    items: BTreeMap<String, String>,
    modules: BTreeMap<String, String>,
}

impl Names {
    /// The names that the `use` lines of a text bring.
    pub fn of(text: &str) -> Names {
        let mut names = Names::default();
        for path in text.lines().filter_map(used) {
            match path.split_once(".{") {
                Some((module, items)) => names.bring(&whole(module), items),
                None => names.bring_module(path),
            }
        }
        names
    }

    /// An item of a module, under the name it has there.
    pub fn add(&mut self, module: &str, name: &str) {
        let path = format!("{module}.{name}");
        self.items.insert(first_part(name).to_string(), path);
    }

    fn bring(&mut self, module: &str, items: &str) {
        for item in items.trim_end_matches('}').split(',') {
            let item = item.trim();
            let (name, here) = item.split_once(" as ").unwrap_or((item, item));
            let path = format!("{module}.{name}");
            self.items.insert(first_part(here).to_string(), path);
        }
    }

    fn bring_module(&mut self, path: &str) {
        let last = path.rsplit('.').next().unwrap_or(path);
        let (path, here) = path.split_once(" as ").unwrap_or((path, last));
        self.modules.insert(here.to_string(), whole(path));
    }

    /// A word without the fields that it projects, and these: `f.count` is `f` and `.count`, where
    /// no module is called `f`. A path has none, and neither has a constructor behind its type.
    pub fn without_fields<'a>(&self, word: &'a str) -> (&'a str, &'a str) {
        let is_of_module = word
            .rsplit_once('.')
            .is_some_and(|(before, name)| name.is_empty() || self.modules.contains_key(before));
        match word.find('.') {
            Some(at) if word.starts_with(char::is_lowercase) && !is_of_module => word.split_at(at),
            _ => (word, ""),
        }
    }

    /// The path of the item that a word names, if it names one. A field, `.name`, is none.
    pub fn path(&self, word: &str) -> Option<String> {
        let Some((before, name)) = word.rsplit_once('.') else {
            return self.items.get(first_part(word)).cloned();
        };
        if word.starts_with("Rattle.") {
            return Some(whole(word));
        }
        if let Some(module) = self.modules.get(before) {
            return Some(format!("{module}.{name}"));
        }
        // a constructor behind its type
        let owner = word.split('.').next().unwrap_or(word);
        self.items.get(owner).cloned()
    }
}
