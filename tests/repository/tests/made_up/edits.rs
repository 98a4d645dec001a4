use repository::edits::{fault, replacements};
use repository::files::File;

const THREE: &str = "\
a comment
file: src/a.rt
old:   x
new:   y
old: z
new:
file: specs/B.antt
old: 1
new: 2
";

#[test]
fn forms() {
    let found = replacements(THREE).expect("three replacements");
    let found = found.iter().map(|one| [&one.file[..], &one.old, &one.new]);
    let expected = [
        ["src/a.rt", "  x", "  y"],
        ["src/a.rt", "z", ""],
        ["specs/B.antt", "1", "2"],
    ];
    assert_eq!(found.collect::<Vec<_>>(), expected);
    for wrong in [
        "",
        "file: src/a.rt\n",
        "old: x\n",
        "new: x\n",
        "old: x\nold: y\nnew: z\n",
    ] {
        assert!(replacements(wrong).is_err(), "{wrong}");
    }
}

/// What is wrong with an edit of a crate with one file; another crate has `src/other.rt`.
fn wrong(lines: &[&str]) -> Option<String> {
    let files = [
        File::new("crates/a/src/lib.rt", "one two two\n"),
        File::new("crates/b/src/other.rt", "one\n"),
    ];
    fault(
        &File::new("crates/a/must-fail/e.edit", &lines.join("\n")),
        &files,
    )
}

#[test]
fn edits_that_can_be_made() {
    assert_eq!(wrong(&["file: src/lib.rt", "old: one", "new: 1"]), None);
    let second = [
        "file: src/lib.rt",
        "old: one two",
        "new: 1",
        "old: two",
        "new: 2",
    ];
    assert_eq!(wrong(&second), None);
}

#[test]
fn faults_are_reported() {
    let lib = "file: src/lib.rt";
    let cases: [(&[&str], &str); 7] = [
        (
            &[lib, "old: two", "new: 2"],
            "'two' occurs 2 times in src/lib.rt",
        ),
        (
            &[lib, "old: six", "new: 6"],
            "'six' occurs 0 times in src/lib.rt",
        ),
        (
            &[lib, "old: one", "new: 1", "old: one", "new: 2"],
            "'one' occurs 0 times in src/lib.rt",
        ),
        (&[lib, "old: one", "new: one"], "'one' stays as it is"),
        (
            &["file: src/other.rt", "old: one", "new: 1"],
            "there is no src/other.rt",
        ),
        (
            &["file: proofs/Main.antt", "old: one", "new: 1"],
            "'proofs/Main.antt' is not under src/ or specs/",
        ),
        (&["old: one", "new: 1"], "'' is not under src/ or specs/"),
    ];
    for (lines, reason) in cases {
        assert_eq!(
            wrong(lines),
            Some(format!("crates/a/must-fail/e.edit: {reason}"))
        );
    }
}
