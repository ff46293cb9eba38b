//! The table of one call.
mod common;
use common::{ADD, Tree};
use survey::call;

/// A document with these rows in its table.
fn document(rows: &str) -> String {
    format!("# A tree\n\n<!-- call -->\n| function | does | by |\n|---|---|---|\n{rows}<!-- /call -->\n")
}

#[test]
fn the_last_cell_has_what_a_contract_cites() {
    let tree = Tree::new("call_cells");
    tree.put("docs/ARCHITECTURE.md", &document("| `quads::quads_add` | the face | |\n| `add::add` | adds | old |\n"));
    let report = call::report(&tree.root).unwrap();
    assert_eq!(report.faults, [""; 0]);
    let rows: Vec<&str> = report.text.lines().skip(2).collect();
    let cells =
        ["| `quads::quads_add` | the face | `add_rule` (rule_add) |", "| `add::add` | adds | `add_rule` (rule_add) |"];
    assert_eq!(rows, cells);
}

#[test]
fn words_stand_alone_only() {
    let tree = Tree::new("call_words");
    let words =
        ADD.replace("specs.Rule.{add_rule}", "specs.Rule.{add_rule};\nghost use Rattle.numbers.specs.Numbers.{spare}");
    let row = |contract: &str| {
        tree.put("crates/add/src/lib.rt", &words.replace("add_rule\n        a b", contract));
        tree.put("docs/ARCHITECTURE.md", &document("| `add::add` | adds | |\n"));
        call::report(&tree.root).unwrap().text.lines().last().unwrap().to_string()
    };
    assert_eq!(row("spare"), "| `add::add` | adds | `spare` (numbers) |");
    assert_eq!(row("add_rule spare"), "| `add::add` | adds | `add_rule` (rule_add) |");
}

#[test]
fn a_function_that_is_gone_is_told() {
    let tree = Tree::new("call_gone");
    tree.put("docs/ARCHITECTURE.md", &document("| `add::gone` | adds | old |\n"));
    let report = call::report(&tree.root).unwrap();
    assert_eq!(report.faults, ["docs/ARCHITECTURE.md: the function add::gone is not found"]);
    assert!(report.text.ends_with("| `add::gone` | adds | old |\n"));
}
