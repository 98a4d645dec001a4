use repository::files::File;
use repository::graph::Graph;
use repository::rules;

use crate::functions::sources;

const NONE: [&str; 0] = [];

#[test]
fn loose_contracts_are_reported() {
    let found = rules::loose_contracts(&Graph::new(&[], &sources()));
    let expected = [
        "crates/a/src/lib.rt: entry has a requires",
        "crates/a/src/open.rt: shown has no ensures",
    ];
    assert_eq!(found, expected);
}

const SPEC: &str = "\
pub data Kind : Type 0 where
  first second : Kind

abbrev pub below : ℕ
below = 1 + 1

abbrev pub seen : ℕ
seen = below

abbrev pub lost : ℕ
lost = seen + 1

abbrev pub ◌plus◌ : ℕ → ℕ → ℕ
a plus b = a
";
const PRIVATE: &str = "\
use Rattle.a.specs.Spec.{◌plus◌}
abbrev pub kept : ℕ
kept = 1 plus 2
";
const STATEMENTS: &str = "\
use Rattle.a.specs.Spec.{lost}
abbrev pub Stated : Type 0
Stated = lost ≡ 3

abbrev pub StatedToo : Type 0
StatedToo = lost ≡ 4
";
const USES: &str = "\
ghost use Rattle.a.specs.Spec.{seen, Kind, first};
ghost use Rattle.a.specs.Private.{kept};
";

/// A crate with these promises of a public and of a private function.
fn graph(public: &str, private: &str) -> Graph {
    let source = format!(
        "{USES}pub fn f()\n    ensures {{ {public} }}\n{{\n}}\n\n\
         fn g()\n    ensures {{ {private} }}\n{{\n}}\n"
    );
    let specs = [
        File::new("crates/a/specs/Spec.antt", SPEC),
        File::new("crates/a/specs/Private.antt", PRIVATE),
        File::new("crates/a/specs/Statements.antt", STATEMENTS),
    ];
    Graph::new(&specs, &[File::new("crates/a/src/lib.rt", &source)])
}

#[test]
fn uncited_definitions_are_reported() {
    assert_eq!(rules::uncited(&graph("seen ≡ first", "kept")), NONE);
    let found = rules::uncited(&graph("(f 1).Kind", "\"first\""));
    let expected = [
        "crates/a/specs/Private.antt: kept",
        "crates/a/specs/Spec.antt: Kind",
        "crates/a/specs/Spec.antt: ◌plus◌",
    ];
    assert_eq!(found, expected, "Stated reaches lost, seen and below");
}

#[test]
fn misplaced_definitions_are_reported() {
    let found = rules::misplaced(&graph("first", "kept"));
    let expected = ["crates/a/specs/Spec.antt: ◌plus◌, which only private contracts reach"];
    assert_eq!(found, expected);
    let found = rules::misplaced(&graph("kept", "first"));
    let expected = [
        "crates/a/specs/Private.antt: kept, which a public contract or a statement reaches",
        "crates/a/specs/Spec.antt: Kind, which only private contracts reach",
    ];
    assert_eq!(found, expected);
}

#[test]
fn unproved_statements_are_reported() {
    let unproved = |proof: &str| {
        let text = format!("use Rattle.a.specs.Statements.{{Stated, StatedToo}}\n\n{proof}");
        let proofs = [File::new("crates/a/proofs/Main.antt", &text)];
        rules::unproved(&graph("seen", "kept"), &proofs)
    };
    let (first, second) = (
        "pub stated : Stated\nstated = refl\n",
        "pub stated-too : StatedToo\nstated-too = refl\n",
    );
    assert_eq!(unproved(&format!("{first}\n{second}")), NONE);
    let snake = second.replace('-', "_");
    assert_eq!(unproved(&format!("{first}\n{snake}")), NONE);
    let expected = ["crates/a/specs/Statements.antt: Stated"];
    for other in [
        "pub law : Stated → ℕ\nlaw s = 1\n",
        "pub other : Stated\nother = refl\n",
    ] {
        assert_eq!(unproved(&format!("{second}\n{other}")), expected);
    }
    assert_eq!(
        unproved(first),
        ["crates/a/specs/Statements.antt: StatedToo"]
    );
}

const ONE: &str = "\
use Rattle.r.specs.R.{none, Frame}
use Rattle.r.specs.declared.D.TheVariants as variant
abbrev pub zero : Frame
zero = record { s = none; count = 0 }

abbrev pub LOAD : ℕ
LOAD = 1

abbrev pub answer : ℕ
answer = variant.Word 1

abbrev pub nested : ℕ
nested = f (g 1)

abbrev pub length_of : ℕ → ℕ → ℕ
length_of lengths segment = get_or lengths segment 0

abbrev pub swapped : ℕ → ℕ → ℕ
swapped a b = get_or b a 0

abbrev pub depth_of : Frame → Frame → ℕ
depth_of old new = new.count
";
const TWO: &str = "\
use Rattle.r.specs.R.{none, Frame}
use Rattle.r.specs.declared.E.TheVariants as variant
-- a frame that is not in use
unfoldable pub free : Frame
free =
    record { s = none; count = 0 }

abbrev pub cut_short : ℕ
cut_short = 1

abbrev pub reply : ℕ
reply = variant.Word 1

abbrev pub flat : ℕ
flat = f g 1

abbrev LOAD : ℕ
LOAD = 7

abbrev pub gates_of : ℕ → ℕ → ℕ
gates_of gates i = get_or gates i 0

abbrev pub count_of : Frame → Frame → ℕ
count_of a b = b.count

abbrev pub other_count : Frame → Frame → ℕ
other_count new old = new.count
";

#[test]
fn duplicates_are_reported() {
    let one = File::new("crates/a/specs/One.antt", ONE);
    let two = File::new("crates/b/specs/Two.antt", TWO);
    let graph = Graph::new(&[one, two], &[]);
    let expected = ["LOAD: crates/a/specs/One.antt, crates/b/specs/Two.antt"];
    assert_eq!(rules::names_twice(&graph), expected);
    let expected = [
        "crates/a/specs/One.antt: zero, crates/b/specs/Two.antt: free",
        "crates/a/specs/One.antt: depth_of, crates/b/specs/Two.antt: count_of",
        "crates/a/specs/One.antt: length_of, crates/b/specs/Two.antt: gates_of",
    ];
    assert_eq!(rules::definitions_twice(&graph), expected);
}
