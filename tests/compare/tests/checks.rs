//! The proved checks and the reference implementation's give the same answers.

use compare::{compare_checks, KINDS};

#[test]
fn the_checks_agree() {
    let answers = compare_checks(7, 20_000).unwrap_or_else(|difference| panic!("{difference}"));
    assert_eq!(answers.total(), 20_000);
    for number in [0, 8, 9, 21, 22, 24, 25] {
        assert!(
            answers.of_number(number) >= 100,
            "few of {number}\n{answers}"
        );
    }
    for kind in KINDS {
        assert!(answers.of_kind(kind) >= 500, "few of {kind:?}\n{answers}");
    }
}
