//! What a file imports.
use crate::catalogue::LIBRARY;
use std::fmt;

/// What the path of a module of a crate begins with.
const ROOT: &str = "Rattle";

/// The folder of the definitions of a crate, and its name in paths of modules.
const SPECS: &str = "specs";

/// A module: of the specs/ of a crate, which may be the kit's, or another one of the kit.
#[derive(Debug, Clone, PartialEq)]
pub struct Place {
    /// The crate; none for a module of the kit that stands in no specs/.
    pub library: Option<String>,
    /// The names that lead to the module.
    pub path: Vec<String>,
}

impl fmt::Display for Place {
    fn fmt(&self, f: &mut fmt::Formatter<'_>) -> fmt::Result {
        if let Some(library) = &self.library {
            write!(f, "{ROOT}.{library}.{SPECS}.")?;
        }
        f.write_str(&self.path.join("."))
    }
}

/// What an import brings.
#[derive(Debug, Clone, PartialEq)]
pub enum What {
    /// Names of the module, each with the name that it has here.
    Names(Vec<(String, String)>),
    /// The module under a name of its own.
    Module(String),
}

/// One import.
#[derive(Debug, Clone, PartialEq)]
pub struct Import {
    /// The module.
    pub place: Place,
    /// What it brings.
    pub what: What,
    /// Whether it is handed on to those that import this file.
    pub public: bool,
}

/// The module that a path names: `Rattle.NAME.specs.FILE`, or one of the kit that stands in no folder of definitions. What
/// is proved of a crate is none.
fn place(text: &str) -> Option<Place> {
    let names: Vec<String> = text.split('.').map(String::from).collect();
    match names.as_slice() {
        [first, library, part, path @ ..] if first == ROOT && (part == SPECS || library != LIBRARY) => {
            (part == SPECS).then(|| Place { library: Some(library.clone()), path: path.to_vec() })
        }
        _ => Some(Place { library: None, path: names }),
    }
}

/// A name of a list, `NAME` or `NAME as OTHER`.
fn renamed(text: &str) -> (String, String) {
    let (name, here) = text.split_once(" as ").unwrap_or((text, text));
    (name.trim().to_string(), here.trim().to_string())
}

/// The import that a statement makes, without the words before its path and the mark behind it.
fn import(text: &str, public: bool) -> Option<Import> {
    if let Some((module, list)) = text.split_once(".{") {
        let names = list.trim_end_matches('}').split(',').filter(|name| !name.trim().is_empty());
        return Some(Import { place: place(module)?, what: What::Names(names.map(renamed).collect()), public });
    }
    let (path, here) = renamed(text);
    let last = here.rsplit('.').next().unwrap_or_default().to_string();
    Some(Import { place: place(&path)?, what: What::Module(last), public })
}

/// What begins an import in a file of definitions, and in one of code; the second of a pair says that it is handed on.
const BEGINNINGS: [(&str, bool); 3] = [("use ", false), ("pub use ", true), ("ghost use ", false)];

/// The imports of definitions in a text. A list of names may stand on several lines.
pub fn imports(text: &str) -> Vec<Import> {
    let mut found = vec![];
    let mut lines = text.lines();
    while let Some(line) = lines.next() {
        let Some((beginning, public)) = BEGINNINGS.into_iter().find(|(beginning, _)| line.starts_with(beginning))
        else {
            continue;
        };
        let mut statement = line[beginning.len()..].trim().to_string();
        while statement.contains('{') && !statement.contains('}') {
            let Some(next) = lines.next() else { break };
            statement += next.trim();
        }
        if !statement.contains("::") {
            found.extend(import(statement.trim_end_matches(';').trim(), public));
        }
    }
    found
}

#[cfg(test)]
mod tests {
    use super::*;

    fn place_of(library: &str, path: &[&str]) -> Place {
        let library = (!library.is_empty()).then(|| library.to_string());
        Place { library, path: path.iter().map(|name| name.to_string()).collect() }
    }

    #[test]
    fn an_import_brings_names_or_a_module() {
        let found = imports("use Rattle.one.specs.Rules.{a, b as c}\npub use Rattle.two.specs.Rules as rules\n");
        assert_eq!(found[0].place, place_of("one", &["Rules"]));
        assert_eq!(found[0].what, What::Names(vec![("a".into(), "a".into()), ("b".into(), "c".into())]));
        assert_eq!(found[1].place, place_of("two", &["Rules"]));
        assert_eq!((found[1].what.clone(), found[1].public), (What::Module("rules".into()), true));
    }

    #[test]
    fn a_list_may_stand_on_several_lines_and_the_kit_may_have_no_crate() {
        let found = imports(
            "ghost use mathlib.Core.List.{map,\n    foldl};\nuse points::Point;\nghost use Rattle.std.specs.Bool.{◌&&◌};\n",
        );
        assert_eq!(found.len(), 2);
        assert_eq!(found[0].place, place_of("", &["mathlib", "Core", "List"]));
        assert_eq!(found[0].what, What::Names(vec![("map".into(), "map".into()), ("foldl".into(), "foldl".into())]));
        assert_eq!(found[1].place, place_of("std", &["Bool"]));
        assert_eq!(found[1].what, What::Names(vec![("◌&&◌".into(), "◌&&◌".into())]));
    }

    #[test]
    fn what_is_proved_is_no_definition_unless_the_kit_has_it() {
        assert_eq!(imports("use Rattle.one.proofs.Laws.{law}\n"), []);
        let found = imports("use Rattle.std.proofs.Math.Option.{\n  Option,\n  none,\n}\n");
        assert_eq!(found[0].place, place_of("", &["Rattle", "std", "proofs", "Math", "Option"]));
        assert_eq!(found[0].what, What::Names(["Option", "none"].map(|name| (name.into(), name.into())).to_vec()));
    }
}
