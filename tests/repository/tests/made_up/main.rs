//! Made-up texts, so that a reader or a rule that finds nothing fails.

mod definitions;
mod documents;
mod edits;
mod functions;
mod names;
mod rules;
