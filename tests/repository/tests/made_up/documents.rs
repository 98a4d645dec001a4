use repository::documents::{exists, paths, rows};
use repository::files::{crate_names, root, File};

const TEXT: &str = "\
See `docs/A.md`, `words/specs/Bit.antt` and `other/x`, docs/B.md, `../include/z.h`.

An odd ` in a paragraph.

```text
`docs/C.md`
```
| `gcc crates/*/src -o x` | `scenarios/none.rs` | `../target/x` |
";

#[test]
fn paths_are_found() {
    let document = File::new("tests/README.md", TEXT);
    let found = paths(&document, &["words".to_string()], &root());
    let expected = [
        "docs/A.md",
        "crates/words/specs/Bit.antt",
        "tests/../include/z.h",
        "crates/*/src",
        "tests/scenarios/none.rs",
    ];
    assert_eq!(found, expected);
    let document = File::new("README.md", "`target/x`, `LICENSE/x`, `docs/x`");
    assert_eq!(paths(&document, &[], &root()), ["docs/x"]);
}

#[test]
fn paths_that_exist() {
    for path in ["docs/", "docs/{ARCHITECTURE,DECISIONS}.md", "tests/../docs"] {
        assert!(exists(&root(), path), "{path}");
    }
    for path in ["crates/*/src/lib.rt", "crates/NAME/specs", "docs/N.md"] {
        assert!(exists(&root(), path), "{path}");
    }
}

#[test]
fn paths_that_do_not() {
    for path in [
        "docs/NOTHING.md",
        "docs/{ARCHITECTURE,NOTHING}.md",
        "docs/{ARCHITECTURE",
    ] {
        assert!(!exists(&root(), path), "{path}");
    }
    for path in [
        "crates/*/nothing",
        "crates/NAME/nothing",
        "docs/*.img",
        "docs/N.img",
    ] {
        assert!(!exists(&root(), path), "{path}");
    }
}

const TABLES: &str = "\
| word |
|---|
| `x` |

| crate | holds |
|---|---|
| `a` | `z` |
| `b` | |

| `c` | |
";

#[test]
fn crates_of_lists() {
    let list = "# NAME: uses\na:\nb: a c\nd staticlib: b\n";
    assert_eq!(crate_names(list), ["a", "b", "d"]);
    assert_eq!(rows(TABLES), ["a", "b"]);
}
