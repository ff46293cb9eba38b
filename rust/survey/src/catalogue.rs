//! crates.txt: the crates in the order of their building, in families that its comments name.
use crate::files;
use std::collections::BTreeSet;
use std::io;
use std::path::Path;

/// A line of crates.txt, `NAME: CRATE CRATE ..`. Words between the name and the mark, as `staticlib`, say how it is built.
#[derive(Debug, Clone, PartialEq)]
pub struct Crate {
    /// Its name.
    pub name: String,
    /// The comment above it: words, rules, machines and so on.
    pub family: String,
    /// The crates that it lists.
    pub uses: Vec<String>,
}

/// The kit's library, which no crate lists.
pub const LIBRARY: &str = "std";

/// All lines of crates.txt.
#[derive(Debug, Default)]
pub struct Catalogue {
    /// The crates, in the order of the file.
    pub crates: Vec<Crate>,
}

impl Catalogue {
    /// Reads the crates.txt of a tree.
    pub fn read(root: &Path) -> io::Result<Catalogue> {
        Ok(Catalogue::parse(&files::text(&root.join("crates.txt"))?))
    }

    /// The crates that a text lists.
    pub fn parse(text: &str) -> Catalogue {
        let mut family = String::new();
        let mut crates = vec![];
        for line in text.lines() {
            if let Some(comment) = line.strip_prefix('#') {
                family = comment.trim().to_string();
            } else if let Some((head, uses)) = line.split_once(':') {
                let name = head.split_whitespace().next().unwrap_or_default().to_string();
                let uses = uses.split_whitespace().map(String::from).collect();
                crates.push(Crate { name, family: family.clone(), uses });
            }
        }
        Catalogue { crates }
    }

    /// The families, in the order of the file.
    pub fn families(&self) -> Vec<&str> {
        let mut seen = BTreeSet::new();
        self.crates.iter().map(|one| one.family.as_str()).filter(|family| seen.insert(*family)).collect()
    }

    /// The crates of a family, in the order of the file.
    pub fn of(&self, family: &str) -> impl Iterator<Item = &Crate> {
        self.crates.iter().filter(move |one| one.family == family)
    }

    /// The family of a crate; none for a crate of the kit.
    pub fn family(&self, name: &str) -> Option<&str> {
        self.crates.iter().find(|one| one.name == name).map(|one| one.family.as_str())
    }

    /// Whether a crate is the kit's: its library, or a crate that is listed without a line of its own.
    pub fn is_of_kit(&self, name: &str) -> bool {
        let listed = || self.crates.iter().any(|one| one.uses.iter().any(|used| used == name));
        self.family(name).is_none() && (name == LIBRARY || listed())
    }
}

#[cfg(test)]
mod tests {
    use super::*;

    #[test]
    fn crates_stand_in_the_family_above_them() {
        let catalogue = Catalogue::parse(
            "# words\nnumbers:\nlists: numbers\n\n# rules\nrule_one: numbers lists\n# tests\nreplay: io\n",
        );
        assert_eq!(catalogue.families(), ["words", "rules", "tests"]);
        assert_eq!(catalogue.family("lists"), Some("words"));
        assert_eq!(catalogue.family("io"), None);
        assert!(catalogue.is_of_kit("std") && catalogue.is_of_kit("io"));
        assert!(!catalogue.is_of_kit("lists") && !catalogue.is_of_kit("libc"));
        assert_eq!(catalogue.of("rules").next().unwrap().uses, ["numbers", "lists"]);
    }

    #[test]
    fn a_static_library_is_a_crate() {
        let catalogue = Catalogue::parse("# faces\nquads: lists\nquads_c staticlib: lists quads\n");
        assert_eq!(catalogue.family("quads_c"), Some("faces"));
        assert_eq!(catalogue.crates[1].name, "quads_c");
        assert_eq!(catalogue.crates[1].uses, ["lists", "quads"]);
    }
}
