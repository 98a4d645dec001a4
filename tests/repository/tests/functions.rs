//! The rules for contracts, held against the repository.

use repository::expect_none;
use repository::graph::Graph;
use repository::rules;

#[test]
fn public_contracts() {
    let found = rules::loose_contracts(&Graph::read());
    expect_none("a public function has an ensures and no requires", found);
}

#[test]
fn functions_are_found() {
    let functions = Graph::read().functions;
    let (public, private): (Vec<_>, Vec<_>) = functions.iter().partition(|one| one.is_public);
    assert!(public.len() >= 50, "{} public functions", public.len());
    assert!(private.len() >= 50, "{} private functions", private.len());
    assert!(
        private.iter().any(|one| !one.requires.is_empty()),
        "a requires"
    );
}
