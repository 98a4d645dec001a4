//! The files of the repository.

use std::fs;
use std::path::{Path, PathBuf};

/// A text file, by its path from the root of the repository.
pub struct File {
    pub path: String,
    pub text: String,
}

impl File {
    pub fn new(path: &str, text: &str) -> File {
        let (path, text) = (path.to_string(), text.to_string());
        File { path, text }
    }

    /// The crate that the file is of: `crates/NAME/..`.
    pub fn crate_name(&self) -> &str {
        self.path.split('/').nth(1).unwrap_or("")
    }
}

pub fn root() -> PathBuf {
    Path::new(env!("CARGO_MANIFEST_DIR")).join("../..")
}

/// A file that must be there.
pub fn read(path: &str) -> File {
    let text = fs::read_to_string(root().join(path));
    let text = text.unwrap_or_else(|error| panic!("{path}: {error}"));
    File::new(path, &text)
}

/// The files with an ending below a folder, in order; none if there is no such folder.
pub fn below(folder: &str, ending: &str) -> Vec<File> {
    let entries = fs::read_dir(root().join(folder)).into_iter().flatten();
    let names = entries.map(|entry| entry.expect("an entry").file_name());
    let mut names: Vec<_> = names.map(|name| name.into_string().unwrap()).collect();
    names.sort();
    let mut found = Vec::new();
    for path in names.iter().map(|name| format!("{folder}/{name}")) {
        if root().join(&path).is_dir() {
            found.extend(below(&path, ending));
        } else if path.ends_with(ending) {
            found.push(read(&path));
        }
    }
    found
}

/// The names in a list of crates, `NAME: DEPENDENCIES` a line, or `NAME staticlib: DEPENDENCIES`.
pub fn crate_names(list: &str) -> Vec<String> {
    let lines = list.lines().filter(|line| !line.starts_with('#'));
    let heads = lines.filter_map(|line| line.split_once(':'));
    let names = heads.filter_map(|(head, _)| head.split_whitespace().next());
    names.map(str::to_string).collect()
}

/// The crates of the repository.
pub fn crates() -> Vec<String> {
    crate_names(&read("crates.txt").text)
}

/// The files of a part of each crate, as `specs`.
pub fn of_crates(part: &str, ending: &str) -> Vec<File> {
    let folders = crates().into_iter();
    let folders = folders.map(|name| format!("crates/{name}/{part}"));
    folders.flat_map(|folder| below(&folder, ending)).collect()
}
