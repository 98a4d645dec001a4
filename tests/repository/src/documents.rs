//! The paths that documents name, and the table of crates.

use std::fs;
use std::path::Path;

use crate::files::{below, read, File};

/// The folders that a path from the root begins with.
const FOLDERS: [&str; 7] = [
    ".ci", "crates", "docs", "examples", "include", "tests", "tools",
];

/// Words that stand for any name in a path.
const ANY: [&str; 2] = ["N", "NAME"];

/// The documents of the repository.
pub fn documents() -> Vec<File> {
    let single = ["README.md", "tests/README.md", "examples/README.md"].map(read);
    single.into_iter().chain(below("docs", ".md")).collect()
}

/// The words in backticks; what stands between fences is left out.
fn code_words(text: &str) -> Vec<String> {
    let mut prose = String::new();
    let mut is_fenced = false;
    for line in text.lines() {
        if line.trim_start().starts_with("```") {
            is_fenced = !is_fenced;
        } else if !is_fenced {
            prose.push_str(line);
            prose.push('\n');
        }
    }
    let paragraphs = prose.split("\n\n");
    let spans = paragraphs.flat_map(|paragraph| paragraph.split('`').skip(1).step_by(2));
    spans
        .flat_map(str::split_whitespace)
        .map(str::to_string)
        .collect()
}

/// The path from the root that a word of a document is, if it is one. It may begin with a folder
/// of the root, with a crate's name, or with what stands beside a document in a folder.
fn path(word: &str, folder: &str, crates: &[String], root: &Path) -> Option<String> {
    let (first, _) = word.split_once('/')?;
    let is_beside = !folder.is_empty() && root.join(folder).join(first).exists();
    if FOLDERS.contains(&first) {
        Some(word.to_string())
    } else if crates.iter().any(|name| name == first) {
        Some(format!("crates/{word}"))
    } else {
        is_beside.then(|| format!("{folder}/{word}"))
    }
}

/// The paths that a document names; what is built, under `target`, is left out.
pub fn paths(document: &File, crates: &[String], root: &Path) -> Vec<String> {
    let (folder, _) = document.path.rsplit_once('/').unwrap_or(("", ""));
    let words = code_words(&document.text);
    let words = words
        .iter()
        .filter(|word| !word.split('/').any(|part| part == "target"));
    words
        .filter_map(|word| path(word, folder, crates, root))
        .collect()
}

/// The paths that `{a,b}` in a path stands for.
pub fn alternatives(path: &str) -> Vec<String> {
    let Some((before, rest)) = path.split_once('{') else {
        return vec![path.to_string()];
    };
    let Some((choices, after)) = rest.split_once('}') else {
        return vec![path.to_string()];
    };
    let paths = choices
        .split(',')
        .map(|choice| format!("{before}{choice}{after}"));
    paths.flat_map(|path| alternatives(&path)).collect()
}

/// Whether a name fits a pattern, in which `*` stands for any text.
fn fits(name: &str, pattern: &str) -> bool {
    let Some((before, after)) = pattern.split_once('*') else {
        return name == pattern;
    };
    let Some(rest) = name.strip_prefix(before) else {
        return false;
    };
    let ends = rest.char_indices().map(|(at, _)| at).chain([rest.len()]);
    ends.into_iter().any(|at| fits(&rest[at..], after))
}

/// Whether something in a folder fits a path of patterns.
fn is_in(folder: &Path, path: &str) -> bool {
    let (first, rest) = path.split_once('/').unwrap_or((path, ""));
    let stem = first.split('.').next().unwrap_or(first);
    if !first.contains('*') && !ANY.contains(&stem) {
        let next = folder.join(first);
        return next.exists() && (rest.is_empty() || is_in(&next, rest));
    }
    let pattern = if first.contains('*') {
        first.to_string()
    } else {
        first.replacen(stem, "*", 1)
    };
    let entries = fs::read_dir(folder).into_iter().flatten().flatten();
    let mut entries = entries.filter(|entry| fits(&entry.file_name().to_string_lossy(), &pattern));
    entries.any(|entry| rest.is_empty() || is_in(&entry.path(), rest))
}

/// Whether all that a path stands for is there.
pub fn exists(root: &Path, path: &str) -> bool {
    alternatives(path).iter().all(|path| is_in(root, path))
}

/// The crates that have a row in a text's table of crates.
pub fn rows(text: &str) -> Vec<String> {
    let table = text
        .lines()
        .skip_while(|line| !line.starts_with("| crate |"));
    let table = table.take_while(|line| line.starts_with('|'));
    let names = table.filter_map(|line| line.strip_prefix("| `")?.split_once('`'));
    names.map(|(name, _)| name.to_string()).collect()
}
