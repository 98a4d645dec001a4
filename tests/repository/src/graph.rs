//! Which definitions a contract or a definition cites, and what is reached so.

use std::collections::{BTreeMap, BTreeSet};

use crate::definitions::{definitions, Definition};
use crate::files::{of_crates, File};
use crate::functions::{functions, Function};
use crate::names::{tokens, Names};

#[derive(Default)]
pub struct Graph {
    /// The definitions by their paths.
    pub definitions: BTreeMap<String, Definition>,
    pub functions: Vec<Function>,
    /// The paths of constructors, each with its type's.
    types: BTreeMap<String, String>,
    /// What names stand for, by file.
    names: BTreeMap<String, Names>,
}

impl Graph {
    pub fn new(specs: &[File], sources: &[File]) -> Graph {
        let mut graph = Graph {
            functions: functions(sources),
            ..Graph::default()
        };
        for file in specs.iter().chain(sources) {
            graph.names.insert(file.path.clone(), Names::of(&file.text));
        }
        for definition in specs.iter().flat_map(definitions) {
            graph.add(definition);
        }
        graph
    }

    /// That of the repository.
    pub fn read() -> Graph {
        Graph::new(&of_crates("specs", ".antt"), &of_crates("src", ".rt"))
    }

    fn add(&mut self, definition: Definition) {
        let module = &definition.module;
        let names = self.names.entry(definition.file.clone()).or_default();
        names.add(module, &definition.name);
        for constructor in definition.constructors() {
            names.add(module, constructor);
            self.types
                .insert(format!("{module}.{constructor}"), definition.path());
        }
        self.definitions.insert(definition.path(), definition);
    }

    /// The definitions that a text of a file cites.
    fn cited(&self, file: &str, text: &str) -> Vec<String> {
        let names = &self.names[file];
        let paths = tokens(text).into_iter().filter_map(|word| names.path(word));
        let owners = paths.map(|path| self.types.get(&path).cloned().unwrap_or(path));
        owners
            .filter(|path| self.definitions.contains_key(path))
            .collect()
    }

    fn cited_by(&self, definition: &Definition) -> Vec<String> {
        let text = format!("{}\n{}", definition.context, definition.text);
        self.cited(&definition.file, &text)
    }

    /// What is reached from some definitions, these too.
    pub fn reached(&self, mut from: Vec<String>) -> BTreeSet<String> {
        let mut reached = BTreeSet::new();
        while let Some(path) = from.pop() {
            if !reached.contains(&path) {
                from.extend(self.cited_by(&self.definitions[&path]));
                reached.insert(path);
            }
        }
        reached
    }

    /// What is reached from the contracts of the public functions, or of the others.
    pub fn reached_by(&self, is_public: bool) -> BTreeSet<String> {
        let functions = self.functions.iter();
        let functions = functions.filter(|function| function.is_public == is_public);
        let cited = functions.flat_map(|function| self.cited(&function.file, &function.contract()));
        self.reached(cited.collect())
    }

    /// A definition's type and body with each name as its path, its own as `_`, and the
    /// parameters of each clause by their places.
    pub fn meaning(&self, definition: &Definition) -> String {
        let text = format!("{}\n{}", definition.context, definition.text);
        let (mut parameters, mut words) = (Vec::new(), Vec::new());
        for line in text.lines() {
            if let Some(begun) = self.clause(definition, line) {
                parameters = begun;
            }
            let tokens = tokens(line).into_iter();
            words.extend(tokens.map(|word| self.word(definition, &parameters, word)));
        }
        words.join(" ")
    }

    /// The parameters of the clause that a line begins: what names nothing before its `=`.
    fn clause<'a>(&self, definition: &Definition, line: &'a str) -> Option<Vec<&'a str>> {
        let names = &self.names[&definition.file];
        let words = tokens(line);
        let (name, words) = words.split_first()?;
        let end = words.iter().position(|word| *word == "=")?;
        let is_named =
            |word: &&str| names.path(word).is_none() && word.starts_with(char::is_alphabetic);
        let words = words[..end].iter().copied().filter(is_named);
        (*name == definition.name).then(|| words.collect())
    }

    fn word(&self, definition: &Definition, parameters: &[&str], word: &str) -> String {
        let names = &self.names[&definition.file];
        let (word, fields) = names.without_fields(word);
        let place = parameters.iter().position(|parameter| *parameter == word);
        let meaning = match (place, names.path(word)) {
            (Some(place), _) => format!("#{place}"),
            (None, Some(path)) if path == definition.path() => "_".to_string(),
            // a constructor behind its type has the type's path
            (None, Some(path)) if word.contains('.') => format!("{path} {word}"),
            (None, Some(path)) => path,
            (None, None) => word.to_string(),
        };
        format!("{meaning}{fields}")
    }
}
