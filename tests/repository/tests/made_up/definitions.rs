use repository::definitions::{definitions, Definition};
use repository::files::File;

const SHAPES: &str = "\
-- Shapes: abbrev pub commented : ℕ
use Rattle.std.specs.Prelude.{ℕ, ◌+◌}

pub data Shape (A : Type 0) : Type 0 where
  -- a point : Shape A
  point line : Shape A
  box : (side : ℕ)
    → Shape A

pub record Place : Type 0 where
  pub across : ℕ
  pub up : ℕ

abbrev pub if◌over◌ : ℕ → ℕ → Place
if a over b = record { across = a; up = b }

infix 5 if◌over◌
module _ (origin : Place) where
  abbrev moved : Place → Place
  moved p =
      record {
        across = p.across + origin.across; -- not up
        up = p.up;
      }

  unfoldable pub still : Place
  still = origin

plain : ℕ
plain = 3

abbrev pub leveled {ℓ} : Type ℓ → Type ℓ
leveled A = A
";

const PROPOSITIONS: &str = "\
abbrev pub Holds : Type 0
Holds = 1 ≡ 1

abbrev pub For : ℕ → Type 0
For n = n ≡ n

pub data Kind : Type 0 where
  kind : Kind
";

fn read(text: &str) -> Vec<Definition> {
    definitions(&File::new("crates/drawing/specs/Shapes.antt", text))
}

fn names<'a>(found: impl Iterator<Item = &'a Definition>) -> Vec<&'a str> {
    found.map(|definition| &definition.name[..]).collect()
}

#[test]
fn all_forms_are_found() {
    let found = read(SHAPES);
    let expected = [
        "Shape",
        "Place",
        "if◌over◌",
        "moved",
        "still",
        "plain",
        "leveled",
    ];
    assert_eq!(names(found.iter()), expected);
    assert_eq!(found[2].path(), "drawing.specs.Shapes.if◌over◌");
    assert_eq!(names(found.iter().filter(|one| one.is_number())), ["plain"]);
}

#[test]
fn lines_belong_to_their_definition() {
    let found = read(SHAPES);
    assert_eq!(found[0].constructors(), ["point", "line", "box"]);
    assert!(found[1].text.contains("pub up : ℕ"), "a field");
    assert!(
        found[1].constructors().is_empty(),
        "a field is no constructor"
    );
    assert!(!found[2].text.contains("infix"), "a fixity");
    assert!(found[3].text.contains("up = p.up;"), "a line of a clause");
    assert!(!found[3].text.contains("not up"), "a comment");
    let in_block = found
        .iter()
        .filter(|one| one.context.contains("origin : Place"));
    assert_eq!(names(in_block), ["moved", "still"]);
}

#[test]
fn propositions_are_told_from_types() {
    let found = read(PROPOSITIONS);
    assert_eq!(names(found.iter()), ["Holds", "For", "Kind"]);
    assert_eq!(
        names(found.iter().filter(|one| one.is_proposition())),
        ["Holds"]
    );
}
