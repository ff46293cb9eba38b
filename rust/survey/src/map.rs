//! The picture of the families of crates and of what each uses, for docs/ARCHITECTURE.md.
use crate::Report;
use crate::catalogue::{Catalogue, Crate};
use crate::document::{self, Document};
use crate::files;
use crate::prose::wrapped;
use std::collections::BTreeSet;
use std::io;
use std::path::Path;

/// The document with the picture.
pub const PICTURE: Document =
    Document { path: "docs/ARCHITECTURE.md", marks: Some(("<!-- map -->", "<!-- /map -->")), tool: "tools/map" };

/// The marks around the table of crates in the same document.
const TABLE: (&str, &str) = ("<!-- crates -->", "<!-- /crates -->");

/// What a family may use: the families that are believed use nothing that is not.
const BELIEVED: [(&str, &[&str]); 2] = [("words", &["words"]), ("rules", &["words", "rules"])];

/// How a crate of none of the families is called.
const KIT: &str = "the kit";

/// Words in lines of the picture, the first behind `title`.
fn lines(title: &str, words: &[&str]) -> String {
    wrapped(&format!("    {title:<10}"), &" ".repeat(14), words)
}

/// The other families that a family uses, in the order of crates.txt, the kit last.
fn used<'a>(catalogue: &'a Catalogue, family: &str) -> Vec<&'a str> {
    let names = catalogue.of(family).flat_map(|one| one.uses.iter());
    let found: BTreeSet<&str> = names.map(|name| catalogue.family(name).unwrap_or(KIT)).collect();
    let order = catalogue.families().into_iter().chain([KIT]);
    order.filter(|other| *other != family && found.contains(other)).collect()
}

/// A family with its crates and the families that it uses.
fn part(catalogue: &Catalogue, family: &str) -> String {
    let names: Vec<&str> = catalogue.of(family).map(|one| one.name.as_str()).collect();
    let used = used(catalogue, family);
    let arrow = if used.is_empty() { String::new() } else { lines("", &["→", &used.join(", ")]) };
    format!("{}{arrow}", lines(family, &names))
}

/// What a crate lists though it may not.
fn forbidden(catalogue: &Catalogue, one: &Crate) -> Vec<String> {
    let Some((_, allowed)) = BELIEVED.iter().find(|(family, _)| *family == one.family) else {
        return vec![];
    };
    let family = |name: &str| catalogue.family(name).unwrap_or(KIT).to_string();
    let wrong = one.uses.iter().filter(|name| !allowed.contains(&family(name).as_str()));
    let told = |name: &String| {
        format!(
            "crates.txt: {} ({}) lists {name} ({}), but may list {} only",
            one.name,
            one.family,
            family(name),
            allowed.join(" and ")
        )
    };
    wrong.map(told).collect()
}

/// The picture, and what is listed though it may not.
pub fn report(root: &Path) -> io::Result<Report> {
    let catalogue = Catalogue::read(root)?;
    let parts: String = catalogue.families().iter().map(|family| part(&catalogue, family)).collect();
    let homeless = catalogue.of("").map(|one| format!("crates.txt: {} stands in no family", one.name));
    let faults = homeless.chain(catalogue.crates.iter().flat_map(|one| forbidden(&catalogue, one))).collect();
    Ok(Report { text: format!("\n{parts}\n"), faults })
}

/// The names in the first cell of a row of a table.
fn names(row: &str) -> Vec<&str> {
    let cell = row.strip_prefix("| ").and_then(|row| row.split(" | ").next()).unwrap_or_default();
    cell.split('`').skip(1).step_by(2).collect()
}

/// Whether the table of crates has each crate of crates.txt once, and no other.
pub fn table_faults(root: &Path) -> io::Result<Vec<String>> {
    let catalogue = Catalogue::read(root)?;
    let text = files::text(&root.join(PICTURE.path))?;
    let Some((_, table, _)) = document::parts(&text, TABLE) else {
        return Ok(vec![format!("{}: the marks {TABLE:?} are missing", PICTURE.path)]);
    };
    let rows: Vec<&str> = table.lines().flat_map(names).collect();
    let times = |name: &str| rows.iter().filter(|row| **row == name).count();
    let wrong = catalogue.crates.iter().filter(|one| times(&one.name) != 1);
    let absent = wrong.map(|one| format!("{}: the table has {} {} times", PICTURE.path, one.name, times(&one.name)));
    let unknown = rows.iter().filter(|name| catalogue.family(name).is_none());
    let strange = unknown.map(|name| format!("{}: the table has {name}, which crates.txt has not", PICTURE.path));
    Ok(absent.chain(strange).collect())
}
