//! Whether the names that the documents set in backquotes stand anywhere in the tree.
use crate::files;
use std::collections::BTreeSet;
use std::io;
use std::path::Path;

/// The folders whose files are read for names, and the endings of these files.
const FOLDERS: [&str; 4] = ["crates", "include", "oracle", "rust"];
const ENDINGS: [&str; 6] = ["rt", "antt", "h", "c", "rs", "toml"];

/// What a name of the logic may have, and code has around a letter.
const PRIME: char = '\'';

/// Characters of a name.
fn is_of_name(character: char) -> bool {
    character.is_alphanumeric() || "_-".contains(character) || character == PRIME
}

/// Whether a text is one name. The beginning of names, `rule_`, and a form of names, `rule_NAME`, are none.
fn is_name(text: &str) -> bool {
    let is_form = text.ends_with('_') || text.contains("NAME");
    text.starts_with(|first: char| first.is_ascii_alphabetic()) && text.chars().all(is_of_name) && !is_form
}

/// All words of the code, the definitions, the proofs and crates.txt.
pub fn words(root: &Path) -> io::Result<BTreeSet<String>> {
    let mut found = BTreeSet::new();
    let mut add = |text: &str| {
        for word in text.split(|one| !is_of_name(one)) {
            found.extend(word.split(PRIME).chain([word]).map(String::from));
        }
    };
    add(&files::text(&root.join("crates.txt"))?);
    for folder in FOLDERS {
        for ending in ENDINGS {
            for path in files::below(&root.join(folder), ending)? {
                add(&files::text(&path)?);
            }
        }
    }
    Ok(found)
}

/// The names in backquotes in a text that are none of these words, each with its line.
pub fn unknown(words: &BTreeSet<String>, document: &str, text: &str) -> Vec<String> {
    let mut found = vec![];
    for (i, line) in text.lines().enumerate() {
        let quoted = line.split('`').skip(1).step_by(2).filter(|text| is_name(text));
        let strange = quoted.filter(|name| !words.contains(*name));
        found.extend(strange.map(|name| format!("{document}:{}: `{name}` stands nowhere in the tree", i + 1)));
    }
    found
}
