//! The proved programs print what the reference says.

use compare::programs::{Comparison, Tally};
use std::fs;
use std::os::unix::fs::symlink;
use std::path::Path;

fn batch(all: &mut Comparison) -> Result<(), String> {
    all.generated(0..150)?;
    all.damaged(0..50)
}

#[test]
fn the_texts_agree() {
    let mut all = Comparison::new(7).unwrap_or_else(|missing| panic!("{missing}"));
    batch(&mut all).unwrap_or_else(|difference| panic!("{difference}"));
    assert_eq!(all.tally.total, 400);
    assert_eq!(all.tally.missing(), [""; 0], "{}", all.tally);
}

#[test]
fn a_missing_program_is_named() {
    let nowhere = Path::new("nowhere");
    let missing = Comparison::of_folder(nowhere, 7).err().unwrap_or_default();
    assert!(
        missing.contains("target/bin/run_image is missing"),
        "{missing}"
    );
}

/// Compares damaged images with another program in the place of both.
fn compared_with(program: &str) -> Result<(), String> {
    let folder = Path::new(env!("CARGO_TARGET_TMPDIR")).join(program);
    let _ = fs::remove_dir_all(&folder);
    fs::create_dir_all(&folder).expect("a folder");
    for name in ["run_image", "log_crossings"] {
        let program = Path::new("/bin").join(program);
        symlink(program, folder.join(name)).expect("a link");
    }
    Comparison::of_folder(&folder, 7)?.damaged(0..1)
}

#[test]
fn another_text_or_status_is_a_difference() {
    let silent = compared_with("true").expect_err("no text");
    assert!(silent.contains("and the reference\n"), "{silent}");
    let fails = compared_with("false").expect_err("a status");
    assert!(fails.contains("exit status: 1"), "{fails}");
}

#[test]
fn what_was_never_reached_is_named() {
    let mut tally = Tally::default();
    assert_eq!(tally.missing().len(), 12, "{:?}", tally.missing());
    tally.add("call 7 0 15 4095\nreturn 0 7 3 12\ncalls 1 returns 1\n");
    tally.add("refused 6\n");
    assert_eq!((tally.digits, tally.of(6)), ([0, 1, 0, 1], 1));
    assert_eq!((tally.high_segments, tally.longest, tally.total), (1, 3, 2));
    assert_eq!(tally.missing().len(), 8, "{:?}", tally.missing());
}
