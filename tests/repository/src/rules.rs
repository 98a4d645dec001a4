//! The rules for definitions and contracts; each gives its offenders, a line each.

use std::collections::{BTreeMap, BTreeSet};

use crate::definitions::{definitions, Definition};
use crate::files::File;
use crate::graph::Graph;
use crate::names::Names;

/// The files of `specs/` that state theorems: each definition there is a statement.
pub const STATEMENT_FILES: [&str; 1] = ["Statements.antt"];

/// The file of `specs/` for definitions that only contracts of private functions cite.
pub const PRIVATE_FILE: &str = "Private.antt";

/// The crate whose one theorem is over a table; the table and the proposition are statements.
pub const TABLE: (&str, &str) = ("readings", "table");

fn is_statement(definition: &Definition) -> bool {
    let (of, table) = TABLE;
    let is_of_table = definition.name == table || definition.is_proposition();
    STATEMENT_FILES.contains(&definition.file_name())
        || definition.crate_name() == of && is_of_table
}

/// What the statements reach, these too.
pub fn reached_by_statements(graph: &Graph) -> BTreeSet<String> {
    let statements = graph.definitions.values().filter(|one| is_statement(one));
    graph.reached(statements.map(Definition::path).collect())
}

/// What a user reads: reached from a public contract or a statement.
fn promised(graph: &Graph) -> BTreeSet<String> {
    let mut reached = graph.reached_by(true);
    reached.extend(reached_by_statements(graph));
    reached
}

/// The definitions with the same key, where there are several.
fn groups(graph: &Graph, key: impl Fn(&Definition) -> String) -> Vec<Vec<&Definition>> {
    let mut groups: BTreeMap<String, Vec<&Definition>> = BTreeMap::new();
    for definition in graph.definitions.values() {
        groups.entry(key(definition)).or_default().push(definition);
    }
    let several = groups.into_values().filter(|group| group.len() > 1);
    several.collect()
}

/// What stands between commas in a message.
fn listed(group: &[&Definition], what: impl Fn(&Definition) -> String) -> String {
    let parts: Vec<_> = group.iter().map(|definition| what(definition)).collect();
    parts.join(", ")
}

/// Names that more than one definition has.
pub fn names_twice(graph: &Graph) -> Vec<String> {
    let groups = groups(graph, |definition| definition.name.clone());
    let files = |group: &[&Definition]| listed(group, |definition| definition.file.clone());
    let lines = groups
        .iter()
        .map(|group| format!("{}: {}", group[0].name, files(group)));
    lines.collect()
}

/// Definitions with the same type and body; two names of one number are none.
pub fn definitions_twice(graph: &Graph) -> Vec<String> {
    let groups = groups(graph, |definition| graph.meaning(definition));
    let groups = groups.iter().filter(|group| !group[0].is_number());
    groups
        .map(|group| listed(group, Definition::place))
        .collect()
}

/// Definitions that stand in the file for private ones and are not, or are and stand elsewhere.
pub fn misplaced(graph: &Graph) -> Vec<String> {
    let (public, private) = (promised(graph), graph.reached_by(false));
    let offence = |(path, definition): (&String, &Definition)| {
        let is_marked = definition.file_name() == PRIVATE_FILE;
        let reason = match (is_marked, public.contains(path), private.contains(path)) {
            (true, true, _) => "which a public contract or a statement reaches",
            (false, false, true) => "which only private contracts reach",
            _ => return None,
        };
        Some(format!("{}, {reason}", definition.place()))
    };
    graph.definitions.iter().filter_map(offence).collect()
}

/// Definitions that no contract and no statement reaches.
pub fn uncited(graph: &Graph) -> Vec<String> {
    let (public, private) = (promised(graph), graph.reached_by(false));
    let all = graph.definitions.iter();
    let uncited = all.filter(|(path, _)| !public.contains(*path) && !private.contains(*path));
    uncited.map(|(_, definition)| definition.place()).collect()
}

/// Public functions that promise nothing or demand something.
pub fn loose_contracts(graph: &Graph) -> Vec<String> {
    let mut found = Vec::new();
    for function in graph.functions.iter().filter(|function| function.is_public) {
        if function.ensures.is_empty() {
            found.push(format!("{} has no ensures", function.place()));
        }
        if !function.requires.is_empty() {
            found.push(format!("{} has a requires", function.place()));
        }
    }
    found
}

/// The name of a statement's proof: that of `RunSteps` is `run-steps`, or `run_steps`.
fn proof_name(statement: &str) -> String {
    let mut name = String::new();
    for c in statement.chars() {
        if c.is_uppercase() && !name.is_empty() {
            name.push('-');
        }
        name.extend(c.to_lowercase());
    }
    name
}

/// The proofs in a file, by their names with `-` between words, each with the path of the proposition that its signature names.
fn proved(file: &File) -> Vec<(String, String)> {
    let names = Names::of(&file.text);
    let proofs = definitions(file).into_iter();
    let signed = proofs.filter_map(|proof| {
        let (_, proposition) = proof.text.lines().next()?.split_once(" : ")?;
        Some((proof.name.replace('_', "-"), names.path(proposition)?))
    });
    signed.collect()
}

/// Propositions in the files of statements that no proof of their name has as its type.
pub fn unproved(graph: &Graph, proofs: &[File]) -> Vec<String> {
    let proved: BTreeSet<_> = proofs.iter().flat_map(proved).collect();
    let stated = graph.definitions.values();
    let stated = stated.filter(|one| is_statement(one) && one.is_proposition());
    let proof = |statement: &Definition| (proof_name(&statement.name), statement.path());
    let unproved = stated.filter(|statement| !proved.contains(&proof(statement)));
    unproved.map(Definition::place).collect()
}
