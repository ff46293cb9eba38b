//! The page docs/READING.md.
use crate::believe::{Beliefs, Contract};
use crate::closure::Node;
use crate::document::Document;
use crate::prose::{counted, listed, number, sentence, wrapped};
use crate::tree::{SpecFile, Tree};
use std::collections::{BTreeMap, BTreeSet};

/// The page.
pub const PAGE: Document = Document { path: "docs/READING.md", marks: None, tool: "tools/believe" };

/// The crate that is read last: what C sees of the operations.
const LAST: &str = "rule_exports";

/// What the page begins with.
const HEAD: &str = "\
# Reading

What a reader must believe, in the order of reading. A definition stands here if the contract of an operation or of an
export cites it, or a claim, or another definition that stands here; for all else the checker vouches. The numbers are
lines, comments among them: the comments quote the request. Unbroken are the lines if none were broken at 120 columns.
`tools/believe --write` writes this page from the tree, and the gate compares them. Names are found by their text, so a
variable with the name of a definition counts as it.
";

/// What the lines of a list begin with behind its first.
const INDENTATION: &str = "  ";

/// How many definitions, and of how many lines.
#[derive(Debug, Default, Clone, Copy, PartialEq)]
struct Size {
    definitions: usize,
    lines: usize,
    unbroken: usize,
    code: usize,
}

/// The size of those of these that stand in a crate, or in any.
fn size(tree: &Tree, nodes: &BTreeSet<Node>, library: Option<&str>) -> Size {
    let definition = |node: &Node| match node {
        Node::Definition(file, place) => Some((&tree.specs[*file], *place)),
        _ => None,
    };
    let counted = nodes.iter().filter_map(definition).filter(|(file, _)| library.is_none_or(|one| file.library == one));
    counted.fold(Size::default(), |sum, (file, place)| {
        let one = &file.spec.definitions[place];
        Size {
            definitions: sum.definitions + 1,
            lines: sum.lines + one.lines,
            unbroken: sum.unbroken + one.unbroken,
            code: sum.code + one.code,
        }
    })
}

/// The crates with believed definitions, in the order of reading: words, rules, claims, and last what C sees.
fn order<'a>(beliefs: &Beliefs<'a>) -> Vec<&'a str> {
    let tree = beliefs.tree;
    let rank = |name: &str| match tree.catalogue.family(name) {
        Some("words") => 0,
        _ if name == LAST => 3,
        Some("rules") => 1,
        Some("claims") => 2,
        _ => 4,
    };
    let mut names: Vec<&str> = tree.catalogue.crates.iter().map(|one| one.name.as_str()).collect();
    names.retain(|name| size(tree, &beliefs.all, Some(name)).definitions > 0 || !types(beliefs, name).is_empty());
    names.sort_by_key(|name| rank(name));
    names
}

/// The names of functions, each with its crate.
fn functions(tree: &Tree, contracts: &[Contract]) -> String {
    let name = |one: &Contract| format!("`{}::{}`", tree.sources[one.file].library, one.function.name);
    contracts.iter().map(name).collect::<Vec<_>>().join(", ")
}

/// Where the definitions are cited first, and how many each of these rests on.
fn beginnings(beliefs: &Beliefs) -> String {
    let tree = beliefs.tree;
    let row = |what: &str, nodes: &BTreeSet<Node>| {
        let size = size(tree, nodes, None);
        let figures = [size.definitions, size.lines, size.unbroken, size.code].map(number).join(" | ");
        format!("| {what} | {figures} |\n")
    };
    let whole = counted(tree.specs.iter().map(|file| file.spec.definitions.len()).sum(), "definition");
    let lines = counted(tree.specs.iter().map(|file| file.spec.lines).sum(), "line");
    let claimed = |(name, nodes): &(&str, BTreeSet<Node>)| row(&format!("claims of crates/{name}/specs"), nodes);
    [
        "\n## Where it begins\n\n".to_string(),
        "| the contracts or claims | definitions | lines | unbroken | without comments |\n|---|---|---|---|---|\n"
            .to_string(),
        row(&format!("operations: {}", functions(tree, &beliefs.doors)), &beliefs.of_doors),
        row(&format!("exports: {}", functions(tree, &beliefs.exports)), &beliefs.of_exports),
        beliefs.claims.iter().map(claimed).collect(),
        row("all", &beliefs.all),
        format!("\nThe folders specs/ of all crates have {whole} in {lines}.\n"),
    ]
    .concat()
}

/// The crates in the order of reading.
fn contents(beliefs: &Beliefs) -> String {
    let mut text = "\n## The order\n\n".to_string();
    text += "| | crate | definitions | lines | lines for the claims |\n|---|---|---|---|---|\n";
    for (i, name) in order(beliefs).into_iter().enumerate() {
        let all = size(beliefs.tree, &beliefs.all, Some(name));
        let claimed = size(beliefs.tree, &beliefs.of_claims, Some(name));
        let figures = format!("{} | {} | {}", all.definitions, all.lines, claimed.lines);
        text += &format!("| {} | [{name}](#{name}) | {figures} |\n", i + 1);
    }
    text
}

/// What is believed of a file of definitions.
fn of_file(beliefs: &Beliefs, i: usize, file: &SpecFile) -> String {
    let definitions = file.spec.definitions.iter().enumerate();
    let believed: Vec<_> = definitions.filter(|(j, _)| beliefs.believes(i, *j)).map(|(_, one)| one).collect();
    if believed.is_empty() {
        return String::new();
    }
    let lines = believed.iter().map(|one| one.lines).sum();
    let all = file.spec.definitions.len();
    let part = if believed.len() == all { String::new() } else { format!(" of {all}") };
    let sizes = format!("{}{part}, {}.", counted(believed.len(), "definition"), counted(lines, "line"));
    let said = format!("[{}](../{}), {sizes} {}", file.module, file.path, sentence(&file.spec.head));
    let words: Vec<String> = said.split_whitespace().map(String::from).collect();
    let names: Vec<String> = believed.iter().map(|one| format!("`{}` {}", one.name, one.lines)).collect();
    wrapped("- ", INDENTATION, &words) + &wrapped(INDENTATION, INDENTATION, &listed(&names))
}

/// The types of a crate's code that are believed, by file.
fn types(beliefs: &Beliefs, library: &str) -> BTreeMap<usize, Vec<String>> {
    let mut found: BTreeMap<usize, Vec<String>> = BTreeMap::new();
    for node in &beliefs.all {
        if let Node::Type(file, place) = node {
            let source = &beliefs.tree.sources[*file];
            let one = &source.source.types[*place];
            if source.library == library {
                found.entry(*file).or_default().push(format!("`{}` {}", one.name, one.lines));
            }
        }
    }
    found
}

/// What is believed of a crate.
fn of_crate(beliefs: &Beliefs, library: &str) -> String {
    let mut text = format!("\n## {library}\n\n");
    let files = beliefs.tree.specs.iter().enumerate().filter(|(_, file)| file.library == library);
    files.for_each(|(i, file)| text += &of_file(beliefs, i, file));
    for (file, names) in types(beliefs, library) {
        let path = &beliefs.tree.sources[file].path;
        let name = path.split_once("/src/").map_or(path.as_str(), |(_, name)| name);
        text += &wrapped(&format!("- types of the code, [{name}](../{path}): "), INDENTATION, &listed(&names));
    }
    text
}

/// What is used of the kit.
fn of_kit(beliefs: &Beliefs) -> String {
    let mut modules: BTreeMap<&str, Vec<String>> = BTreeMap::new();
    for node in &beliefs.all {
        if let Node::Kit(module, name) = node {
            modules.entry(module).or_default().push(format!("`{name}`"));
        }
    }
    let row = |(module, names): (&&str, &Vec<String>)| wrapped(&format!("- `{module}`: "), INDENTATION, &listed(names));
    format!("\n## The kit\n\n{}", modules.iter().map(row).collect::<String>())
}

/// The page.
pub fn page(beliefs: &Beliefs) -> String {
    let crates: String = order(beliefs).into_iter().map(|library| of_crate(beliefs, library)).collect();
    format!("{HEAD}{}{}{crates}{}", beginnings(beliefs), contents(beliefs), of_kit(beliefs))
}
