//! The program: what it prints, compares and writes, and its exit codes.
mod common;
use common::Tree;
use std::process::Command;

/// Runs the program at the root of a tree: its exit code, what it printed and what it found wrong.
fn run(tree: &Tree, words: &[&str]) -> (Option<i32>, String, String) {
    let output = Command::new(env!("CARGO_BIN_EXE_survey")).current_dir(&tree.root).args(words).output().unwrap();
    let text = |bytes: Vec<u8>| String::from_utf8(bytes).unwrap();
    (output.status.code(), text(output.stdout), text(output.stderr))
}

#[test]
fn a_page_is_printed_written_and_compared() {
    let tree = Tree::new("program_believe");
    let told = "docs/READING.md:1: not what tools/believe prints: run tools/believe --write\n";
    assert_eq!(run(&tree, &["believe", "--check"]), (Some(1), String::new(), told.to_string()));
    let (code, page, _) = run(&tree, &["believe"]);
    assert_eq!((code, page.lines().next()), (Some(0), Some("# Reading")));
    assert_eq!(run(&tree, &["believe", "--write"]), (Some(0), String::new(), String::new()));
    assert_eq!(tree.get("docs/READING.md"), page);
    assert_eq!(run(&tree, &["believe", "--check"]).0, Some(0));
    tree.put("docs/READING.md", &page.replace("## The order", "## An order"));
    let line = 1 + page.lines().position(|line| line == "## The order").unwrap();
    assert!(run(&tree, &["believe", "--check"]).2.starts_with(&format!("docs/READING.md:{line}: ")));
}

/// A document with an empty picture, a table of one call and a table of crates.
fn architecture(cell: &str) -> String {
    let call = format!("<!-- call -->\n| `add::add` | adds | {cell} |\n<!-- /call -->\n");
    let rows = "| `numbers`, `rule_add`, `machine`, `add`, `safety`, `quads` | all |\n";
    format!("# A tree\n<!-- map -->\n<!-- /map -->\n{call}<!-- crates -->\n{rows}<!-- /crates -->\n")
}

#[test]
fn the_picture_and_the_call_are_written_between_their_marks() {
    let tree = Tree::new("program_map");
    tree.put("docs/ARCHITECTURE.md", &architecture("old"));
    let told = |line: usize| format!("docs/ARCHITECTURE.md:{line}: not what tools/map prints: run tools/map --write\n");
    assert_eq!(run(&tree, &["map", "--check"]), (Some(1), String::new(), told(3) + &told(5)));
    assert_eq!(run(&tree, &["map", "--write"]), (Some(0), String::new(), String::new()));
    assert_eq!(run(&tree, &["map", "--check"]), (Some(0), String::new(), String::new()));
    let picture = run(&tree, &["map"]).1;
    let whole = architecture("`add_rule` (rule_add)").replace("<!-- /map -->", &format!("{picture}<!-- /map -->"));
    assert_eq!(tree.get("docs/ARCHITECTURE.md"), whole);
}

#[test]
fn a_document_without_marks_is_told() {
    let tree = Tree::new("program_marks");
    tree.put("docs/ARCHITECTURE.md", "# A tree\n");
    let (code, _, log) = run(&tree, &["map", "--write"]);
    assert_eq!((code, log.lines().count()), (Some(1), 3));
    assert!(log.starts_with("docs/ARCHITECTURE.md: the marks (\"<!-- map -->\", \"<!-- /map -->\") are missing\n"));
}

#[test]
fn faults_are_the_exit_code_1_and_wrong_words_2() {
    let tree = Tree::new("program_codes");
    assert_eq!(run(&tree, &["columns"]).0, Some(0));
    assert_eq!(run(&tree, &["paths"]).0, Some(0));
    tree.put("README.md", "crates/gone\n");
    assert_eq!(run(&tree, &["paths"]).0, Some(1));
    tree.put("crates/add/src/wide.rt", &format!("// {}\n", "a".repeat(200)));
    assert_eq!(run(&tree, &["columns"]).0, Some(1));
    assert_eq!(run(&tree, &["columns", "--write"]).0, Some(2));
    assert_eq!(run(&tree, &[]).0, Some(2));
    std::fs::remove_file(tree.root.join("crates.txt")).unwrap();
    let (code, _, log) = run(&tree, &["map"]);
    assert_eq!((code, log.starts_with("survey: ./crates.txt: ")), (Some(1), true));
}
