//! What the repository says about itself: the definitions of its specs, the
//! contracts of its functions, the edits that must fail, and the paths in its
//! documents. The tests hold these to the rules of the repository.

pub mod definitions;
pub mod documents;
pub mod edits;
pub mod files;
pub mod functions;
pub mod graph;
pub mod names;
pub mod rules;

/// Fails with those against a rule, a line each, if there are any.
pub fn expect_none(rule: &str, offenders: Vec<String>) {
    let count = offenders.len();
    let lines = offenders.join("\n  ");
    assert!(
        offenders.is_empty(),
        "{rule}. Against it, {count}:\n  {lines}\n"
    );
}
