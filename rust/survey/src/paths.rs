//! Whether the paths and the names in the documents exist.
use crate::Report;
use crate::{files, names};
use std::io;
use std::path::Path;

/// Folders of a crate: a path NAME/FOLDER/.. stands for crates/NAME/FOLDER/...
const PARTS: [&str; 4] = ["src", "specs", "proofs", "must-fail"];

/// Folders of the root whose paths are looked at.
const FOLDERS: [&str; 7] = ["crates", "docs", "include", "oracle", "rust", "tools", ".ci"];

/// Where the original's files stand, in its own tree.
const ORIGINAL: &str = "crates/meshers-core";

/// Characters of a path.
fn is_of_path(character: char) -> bool {
    character.is_ascii_alphanumeric() || "_-./*".contains(character)
}

/// The path from the root that a word names, if it names one that has to exist. Capitals and a star stand for any name.
fn named(word: &str) -> Option<String> {
    let word = word.trim_start_matches("../").trim_end_matches(['.', '/']);
    let names: Vec<&str> = word.split('/').collect();
    let (first, second) = (*names.first()?, *names.get(1)?);
    let open = word.contains('*') || names.contains(&"target") || word.starts_with(ORIGINAL);
    let library = if first == "crates" { second } else { first };
    if open || library.contains(|one: char| one.is_ascii_uppercase()) && first != "docs" {
        return None;
    }
    match (FOLDERS.contains(&first), PARTS.contains(&second)) {
        (true, _) => Some(word.to_string()),
        (false, true) => Some(format!("crates/{word}")),
        (false, false) => None,
    }
}

/// The paths of a text that do not exist, each with its line.
fn dead(root: &Path, document: &str, text: &str) -> Vec<String> {
    let mut found = vec![];
    for (i, line) in text.lines().enumerate() {
        let paths = line.split(|one| !is_of_path(one)).filter_map(named);
        let missing = paths.filter(|path| !root.join(path).exists());
        found.extend(missing.map(|path| format!("{document}:{}: {path} does not exist", i + 1)));
    }
    found
}

/// All paths and names in README.md, CONTRIBUTING.md and docs/*.md that do not exist.
pub fn report(root: &Path) -> io::Result<Report> {
    let words = names::words(root)?;
    let mut documents = vec![root.join("README.md"), root.join("CONTRIBUTING.md")];
    documents.retain(|path| path.ends_with("README.md") || path.exists());
    documents.extend(files::below(&root.join("docs"), "md")?);
    let mut faults = vec![];
    for path in &documents {
        let (name, text) = (files::from_root(root, path), files::text(path)?);
        faults.extend(dead(root, &name, &text));
        faults.extend(names::unknown(&words, &name, &text));
    }
    let text = format!("documents: {}; paths and names that do not exist: {}\n", documents.len(), faults.len());
    Ok(Report { text, faults })
}

#[cfg(test)]
mod tests {
    use super::*;

    #[test]
    fn paths_are_read_from_the_root() {
        for (word, path) in [
            ("crates/one/src/lib.rt", Some("crates/one/src/lib.rt")),
            ("one/proofs/Law.antt.", Some("crates/one/proofs/Law.antt")),
            ("../crates/one/specs", Some("crates/one/specs")),
            ("docs/READING.md", Some("docs/READING.md")),
            ("tools/run", Some("tools/run")),
            ("crates/NAME/src", None),
            ("rule_X/specs", None),
            ("crates/rule_*", None),
            ("rust/target/release/tool", None),
            ("and/or", None),
            ("crates/meshers-core/src", None),
        ] {
            assert_eq!(named(word).as_deref(), path, "{word}");
        }
    }
}
