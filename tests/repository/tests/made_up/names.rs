use repository::names::{tokens, without_comments, Names};

const USES: &str = "\
use Rattle.std.specs.Prelude.{ℕ, ◌+◌}
ghost use Rattle.words.specs.Answer.{Answer, number_of, ◌>>=◌, if◌then◌else◌, ok as fine};
use Rattle.words.specs.declared.mode.Mode.TheVariants as variant
use Rattle.words.specs.Bit
use crate::words::Unknown;
";

#[test]
fn words_and_signs() {
    let found = tokens("f (g x).y \"a (b\" {λ i. c.z}");
    assert_eq!(found[..7], ["f", "(", "g", "x", ")", ".y", "\"a (b\""]);
    assert_eq!(found[7..], ["{", "λ", "i.", "c.z", "}"]);
}

#[test]
fn comments() {
    let text = "a-b -- c\n-- d\n\"-- e\" f\n";
    assert_eq!(without_comments(text, "--"), "a-b\n\n\"-- e\" f\n");
}

#[test]
fn names_stand_for_paths() {
    let names = Names::of(USES);
    for (word, path) in [
        ("+", "std.specs.Prelude.◌+◌"),
        ("Answer", "words.specs.Answer.Answer"),
        ("number_of", "words.specs.Answer.number_of"),
        (">>=", "words.specs.Answer.◌>>=◌"),
        ("◌>>=◌", "words.specs.Answer.◌>>=◌"),
        ("if", "words.specs.Answer.if◌then◌else◌"),
        ("fine", "words.specs.Answer.ok"),
        // a constructor behind its type
        ("Answer.ok", "words.specs.Answer.Answer"),
        (
            "variant.Word",
            "words.specs.declared.mode.Mode.TheVariants.Word",
        ),
        ("Bit.bit", "words.specs.Bit.bit"),
        ("Rattle.words.specs.Bit.bit", "words.specs.Bit.bit"),
    ] {
        assert_eq!(names.path(word).as_deref(), Some(path), "{word}");
    }
    for word in [".Answer", "\"Answer\"", "ok", "Unknown", "then", "number"] {
        assert_eq!(names.path(word), None, "{word}");
    }
}

#[test]
fn fields_are_told_from_paths() {
    let names = Names::of(USES);
    for (word, owner, fields) in [
        ("m.layout.gates", "m", ".layout.gates"),
        ("number_of.x", "number_of", ".x"),
    ] {
        assert_eq!(names.without_fields(word), (owner, fields));
    }
    for word in [
        "m",
        ".layout",
        "i.",
        "variant.Word",
        "Answer.ok",
        "Bit.bit",
        "Rattle.words.specs.Bit.bit",
    ] {
        assert_eq!(names.without_fields(word), (word, ""));
    }
}
