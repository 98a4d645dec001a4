//! The edits that must fail can be made, in code or definitions.

use repository::edits::fault;
use repository::expect_none;
use repository::files::of_crates;

#[test]
fn edits() {
    let edits = of_crates("must-fail", ".edit");
    assert!(edits.len() >= 150, "{} edits", edits.len());
    let files: Vec<_> = of_crates("src", ".rt")
        .into_iter()
        .chain(of_crates("specs", ".antt"))
        .collect();
    let found = edits
        .iter()
        .filter_map(|edit| fault(edit, &files))
        .collect();
    expect_none(
        "an edit changes a text that occurs once, in src/ or specs/ of its crate",
        found,
    );
}
