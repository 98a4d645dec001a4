use repository::files::File;
use repository::functions::{functions, Function};

const LIB: &str = "\
pub mod open;
mod shut;

// fn gone()
fn hidden(x: u8) -> u8
{
    x
}

#[unsafe(no_mangle)]
pub extern \"C\" fn entry(x: &[u8; 4], y: u8) -> u8
    requires { y < 9 }
    ensures code { result ≡ record { a = 1; b = { 2 } } }
    ensures value { result ≡ two }
{
    let requires = { three };
    y
}
";
const OPEN: &str = "pub mod inner;\n\npub fn shown<'a>(x: u8) -> u8\n{\n    x\n}\n";
const INNER: &str = "pub fn deep()\n    ensures { one }\n{\n}\n";
const SHUT: &str = "pub fn inside()\n    requires { one }\n{\n}\n";
const MAIN: &str = "pub fn main() {\n}\n";

/// The files of a library and of a program.
pub fn sources() -> [File; 5] {
    [
        File::new("crates/a/src/lib.rt", LIB),
        File::new("crates/a/src/open.rt", OPEN),
        File::new("crates/a/src/open/inner.rt", INNER),
        File::new("crates/a/src/shut.rt", SHUT),
        File::new("crates/b/src/main.rt", MAIN),
    ]
}

fn names<'a>(found: impl Iterator<Item = &'a Function>) -> Vec<&'a str> {
    found.map(|function| &function.name[..]).collect()
}

#[test]
fn public_ones_are_told() {
    let found = functions(&sources());
    let expected = ["hidden", "entry", "shown", "deep", "inside", "main"];
    assert_eq!(names(found.iter()), expected);
    let public = found.iter().filter(|function| function.is_public);
    assert_eq!(names(public), ["entry", "shown", "deep"]);
}

#[test]
fn contracts_are_read() {
    let found = functions(&sources());
    let [hidden, entry, ..] = &found[..] else {
        panic!("{} functions", found.len());
    };
    assert_eq!(entry.requires, [" y < 9 "]);
    assert_eq!(entry.ensures.len(), 2);
    assert!(entry.ensures[0].ends_with("b = { 2 } } "));
    assert!(!entry.contract().contains("three"), "a body is no contract");
    assert!(hidden.contract().is_empty());
}
