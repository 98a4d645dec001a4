//! The examples: each text gives the stored image, and the image's run prints
//! the stored lines and the stored log.

mod common;

use std::collections::BTreeSet;
use std::fs;
use std::path::PathBuf;

use common::read;

/// A file of the examples.
fn path(file: &str) -> PathBuf {
    let examples = PathBuf::from(env!("CARGO_MANIFEST_DIR")).join("../../examples");
    examples.join(file)
}

/// The names of all files with an ending.
fn names(ending: &str) -> BTreeSet<String> {
    let files = fs::read_dir(path("")).expect("the folder");
    let files = files.map(|file| file.expect("a file").path());
    let files = files.filter(|file| file.extension().is_some_and(|found| found == ending));
    files
        .map(|file| file.file_stem().unwrap().to_string_lossy().into_owned())
        .collect()
}

/// The image that the tool makes of an example.
fn image(name: &str) -> Vec<u8> {
    let text = fs::read(path(&format!("{name}.zk"))).expect("the text");
    text::assemble_bytes(&text).unwrap_or_else(|error| panic!("{name}.zk: {error}"))
}

#[test]
fn images_and_results_are_as_stored() {
    let texts = names("zk");
    assert_eq!(texts, names("img"), "an image for each text");
    assert_eq!(texts, names("out"), "a result for each text");
    assert_eq!(texts, names("log"), "a log for each text");
    for name in &texts {
        let image = image(name);
        let stored = fs::read(path(&format!("{name}.img"))).expect("the image");
        assert!(image == stored, "{name}.img is not the image of its text");
        let stored = |ending| fs::read_to_string(path(&format!("{name}.{ending}")));
        let [result, log] = ["out", "log"].map(|ending| stored(ending).expect("a file"));
        assert_eq!(reference::report::printed(&image), result, "{name}");
        assert_eq!(reference::printed_log(&image), log, "{name}");
    }
}

/// The results that the comments of the examples explain.
#[test]
fn results_are_as_explained() {
    for (name, end, count, domain, at, a) in [
        ("halt", "halted", 1, 0, "0 0", 0),
        ("first_package", "halted", 13, 0, "0 3", 42),
        ("loop", "halted", 94, 0, "0 10", 55),
        ("two_subsystems", "halted", 8, 0, "0 3", 42),
        ("private_data", "fault 24", 4, 1, "2 2", 20),
        ("trick_address", "fault 25", 3, 1, "2 1", 20),
        ("passed_on", "halted", 13, 0, "0 2", 20),
        ("passed_on_for_more", "fault 24", 6, 1, "2 4", 0),
        ("nested_calls", "halted", 21, 0, "0 6", 40),
        ("handed_on_list", "halted", 13, 0, "0 3", 22),
    ] {
        let lines = format!("end {end}\ncount {count}\ndomain {domain}\nat {at}\na {a}\n");
        assert_eq!(reference::report::printed(&image(name)), lines, "{name}");
    }
}

/// The words that a run of an example changes: segment, word, new value; and
/// the frames in use at its end.
fn changed(name: &str) -> (Vec<(u32, usize, u32)>, u8) {
    let (mut machine, mut memory) = read(&image(name));
    let before = memory.clone();
    reference::run(&mut machine, &mut memory, 1000).expect("sound");
    let mut changed = Vec::new();
    for number in 0..u32::from(machine.segment_count) {
        let old = reference::segment(&machine, &before, number);
        let new = reference::segment(&machine, &memory, number);
        for (word, (old, new)) in old.iter().zip(new).enumerate() {
            if old != new {
                changed.push((number, word, *new));
            }
        }
    }
    (changed, machine.frame_count)
}

#[test]
fn words_changed_by_a_run() {
    assert_eq!(changed("halt"), (vec![], 0));
    let expected = (vec![(1, 4, 42), (3, 0, 1)], 0);
    assert_eq!(changed("first_package"), expected);
    assert_eq!(changed("loop"), (vec![(1, 0, 0), (1, 1, 55)], 0));
    assert_eq!(changed("two_subsystems"), (vec![(1, 3, 42)], 0));
    assert_eq!(changed("private_data"), (vec![], 1));
    assert_eq!(changed("trick_address"), (vec![], 1));
    let stored = vec![(3, 1, 0x8000_1003), (3, 5, 0x8000_1001)];
    assert_eq!(changed("passed_on_for_more"), (stored.clone(), 1));
    let stored = [stored, vec![(5, 0, 20)]].concat();
    assert_eq!(changed("passed_on"), (stored, 0));
    let stored = vec![(1, 3, 42), (1, 4, 2), (3, 1, 0x8000_1005), (3, 2, 2)];
    assert_eq!(changed("nested_calls"), (stored, 0));
    let stored = vec![(1, 2, 22), (3, 1, 0x8000_1003)];
    assert_eq!(changed("handed_on_list"), (stored, 0));
}

/// The log that the comment of an example explains: what stands before the
/// explanations.
#[test]
fn the_log_is_as_explained() {
    let text = fs::read_to_string(path("nested_calls.zk")).expect("the text");
    let log = fs::read_to_string(path("nested_calls.log")).expect("the log");
    let mut explained = text.lines().filter_map(|line| line.strip_prefix("#   "));
    for line in log.lines() {
        let explained = explained.next().expect("a line for each");
        assert!(explained.starts_with(&format!("{line} ")), "{line}");
    }
    assert_eq!(explained.next(), None);
}

#[test]
fn examples_come_back_from_text() {
    for name in names("zk") {
        let image = image(&name);
        let text = text::disassemble(&image).expect("accepted");
        assert_eq!(text::assemble(&text), Ok(image), "{name}");
    }
}
