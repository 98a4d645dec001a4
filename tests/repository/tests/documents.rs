//! What the documents name is there.

use std::collections::BTreeSet;

use repository::documents::{self, alternatives, exists, paths, rows};
use repository::expect_none;
use repository::files::{crates, of_crates, read, root};
use repository::rules::PRIVATE_FILE;

#[test]
fn documents() {
    let crates = crates();
    let mut named = Vec::new();
    for document in documents::documents() {
        let paths = paths(&document, &crates, &root());
        named.extend(paths.into_iter().map(|path| (document.path.clone(), path)));
    }
    assert!(named.len() >= 30, "{} paths", named.len());
    let missing = named.iter().filter(|(_, path)| !exists(&root(), path));
    let missing = missing.map(|(document, path)| format!("{document}: {path}"));
    expect_none("a path in a document exists", missing.collect());
}

#[test]
fn crates_have_rows() {
    let (crates, rows) = (crates(), rows(&read("docs/ARCHITECTURE.md").text));
    let without = crates.iter().filter(|name| !rows.contains(name));
    let gone = rows.iter().filter(|name| !crates.contains(name));
    let without = without.map(|name| format!("{name} has no row"));
    let gone = gone.map(|name| format!("{name} has a row and is no crate"));
    let found = without.chain(gone).collect();
    expect_none("docs/ARCHITECTURE.md has a row for each crate", found);
}

/// The map leads to each file of definitions; those of private functions need not be believed.
#[test]
fn map_is_whole() {
    let named = paths(&read("docs/MAP.md"), &crates(), &root());
    let named: BTreeSet<_> = named.iter().flat_map(|path| alternatives(path)).collect();
    let specs = of_crates("specs", ".antt").into_iter();
    let specs = specs.filter(|file| !file.path.ends_with("/Lib.antt"));
    let believed = specs.filter(|file| !file.path.ends_with(PRIVATE_FILE));
    let missing = believed.filter(|file| !named.contains(&file.path));
    let missing = missing.map(|file| file.path).collect();
    expect_none("docs/MAP.md names each file of definitions", missing);
}
