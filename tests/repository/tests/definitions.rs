//! The rules for definitions, held against the repository.

use repository::expect_none;
use repository::files::of_crates;
use repository::graph::Graph;
use repository::rules;

#[test]
fn no_name_twice() {
    let found = rules::names_twice(&Graph::read());
    expect_none("a name has one definition in the repository", found);
}

#[test]
fn no_definition_twice() {
    let found = rules::definitions_twice(&Graph::read());
    expect_none("no two definitions have the same type and body", found);
}

#[test]
fn private_definitions_are_marked() {
    let found = rules::misplaced(&Graph::read());
    let rule = "what only private contracts reach stands in Private.antt, and nothing else does";
    expect_none(rule, found);
}

#[test]
fn every_definition_is_cited() {
    let found = rules::uncited(&Graph::read());
    expect_none("a contract or a statement reaches each definition", found);
}

#[test]
fn every_statement_is_proved() {
    let found = rules::unproved(&Graph::read(), &of_crates("proofs", ".antt"));
    expect_none("a proof has each stated proposition as its type", found);
}

/// The rules above hold of nothing where nothing is read.
#[test]
fn definitions_are_found() {
    let graph = Graph::read();
    assert!(
        graph.definitions.len() >= 300,
        "{} definitions",
        graph.definitions.len()
    );
    let public = graph.reached_by(true).len();
    assert!(public >= 250, "{public} reached from public contracts");
    let stated = rules::reached_by_statements(&graph).len();
    assert!(stated >= 10, "{stated} reached from statements");
    assert!(
        graph.reached_by(false).len() >= 200,
        "reached from private contracts"
    );
}
