//! The table of docs/ARCHITECTURE.md that follows one call through the crates: the last cell of a row has the
//! definitions by which the contract of its function says what it leaves.
use crate::Report;
use crate::closure::{Graph, Node};
use crate::document::{self, Document};
use crate::files;
use crate::source::Function;
use crate::tree::Tree;
use std::io;
use std::path::Path;

/// The marks around the table.
const MARKS: (&str, &str) = ("<!-- call -->", "<!-- /call -->");

/// The document with the table.
pub const TABLE: Document = Document { path: "docs/ARCHITECTURE.md", marks: Some(MARKS), tool: "tools/map" };

/// The function of this name, `CRATE::NAME`, with its file.
fn function<'a>(tree: &'a Tree, name: &str) -> Option<(usize, &'a Function)> {
    let (library, name) = name.split_once("::")?;
    let files = tree.sources.iter().enumerate().filter(|(_, file)| file.library == library);
    let mut found = files.filter_map(|(i, file)| Some((i, file.source.functions.iter().find(|one| one.name == name)?)));
    found.next()
}

/// The definitions that the contract of a function cites for what it leaves, by crate, in the order of the text. Words
/// are left out where it cites a rule or a step.
fn cited(tree: &Tree, graph: &Graph, file: usize, function: &Function) -> String {
    let mut crates: Vec<(&str, Vec<String>)> = vec![];
    for node in graph.cited_in(file, &function.ensures()) {
        let Node::Definition(file, place) = node else { continue };
        let library = tree.specs[file].library.as_str();
        let name = format!("`{}`", tree.specs[file].spec.definitions[place].name);
        match crates.iter_mut().find(|(known, _)| *known == library) {
            Some((_, names)) if names.contains(&name) => {}
            Some((_, names)) => names.push(name),
            None => crates.push((library, vec![name])),
        }
    }
    let is_word = |library: &str| tree.catalogue.family(library) == Some("words");
    if crates.iter().any(|(library, _)| !is_word(library)) {
        crates.retain(|(library, _)| !is_word(library));
    }
    let part = |(library, names): &(&str, Vec<String>)| format!("{} ({library})", names.join(", "));
    crates.iter().map(part).collect::<Vec<_>>().join("; ")
}

/// A row of the table with its last cell filled; a row whose function is not found is as it was.
fn filled(tree: &Tree, graph: &Graph, row: &str) -> Result<String, String> {
    let Some(name) = row.strip_prefix("| `").and_then(|row| row.split('`').next()) else {
        return Ok(row.to_string());
    };
    let Some((file, function)) = function(tree, name) else {
        return Err(format!("{}: the function {name} is not found", TABLE.path));
    };
    let (kept, _) = row.trim_end_matches('|').rsplit_once('|').unwrap_or((row, ""));
    Ok(format!("{kept}| {} |", cited(tree, graph, file, function)))
}

/// The table as it should be, and the functions in it that are not found.
pub fn report(root: &Path) -> io::Result<Report> {
    let text = files::text(&root.join(TABLE.path))?;
    let tree = Tree::read(root)?;
    let graph = Graph::new(&tree);
    let mut report = Report::default();
    for row in document::parts(&text, MARKS).unwrap_or_default().1.lines() {
        match filled(&tree, &graph, row) {
            Ok(row) => report.text += &format!("{row}\n"),
            Err(fault) => {
                report.text += &format!("{row}\n");
                report.faults.push(fault);
            }
        }
    }
    Ok(report)
}
