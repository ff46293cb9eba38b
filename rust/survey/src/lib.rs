//! Reads the tree of the library as text: what a reader must believe, which families of crates use which, how wide the
//! lines are, and whether the documents name files that exist.
//!
//! Nothing is proved or compiled here: `rt` does that. Names are found by their text and the imports of their file.
#![deny(missing_docs)]

pub mod believe;
pub mod call;
pub mod catalogue;
pub mod closure;
pub mod columns;
pub mod document;
pub mod files;
pub mod imports;
pub mod map;
pub mod names;
pub mod paths;
pub mod prose;
pub mod reading;
pub mod source;
pub mod spec;
pub mod tokens;
pub mod tree;

/// What a look at the tree gives: a text to print, and what is wrong, one line each.
#[derive(Debug, Default, PartialEq)]
pub struct Report {
    /// The text to print.
    pub text: String,
    /// What is wrong.
    pub faults: Vec<String>,
}
