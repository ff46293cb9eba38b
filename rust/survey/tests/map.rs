//! The picture of a small tree, and the lists of crates that are refused.
mod common;
use common::{CRATES, Tree};
use survey::map;

/// A table of crates with these rows.
fn table(rows: &str) -> String {
    format!("# A tree\n\n<!-- crates -->\n\n| crate | holds |\n|---|---|\n{rows}\n<!-- /crates -->\n")
}

#[test]
fn each_family_has_its_crates_and_what_it_uses() {
    let tree = Tree::new("map_all");
    tree.put("crates.txt", &format!("{CRATES}\n# tests\nreplay: io quads\n"));
    let report = map::report(&tree.root).unwrap();
    assert_eq!(report.faults, [""; 0]);
    let picture = "
    words     numbers
    rules     rule_add
              → words
    machines  machine
              → words, rules
    doors     add
              → words, rules, machines
    claims    safety
              → words, rules
    faces     quads
              → rules, doors
    tests     replay
              → faces, the kit

";
    assert_eq!(report.text, picture);
}

#[test]
fn a_rule_may_list_rules_and_words_only() {
    let tree = Tree::new("map_rule");
    tree.put("crates.txt", &CRATES.replace("rule_add: numbers\n", "rule_add: numbers machine libc\n"));
    let told = |name: &str| format!("crates.txt: rule_add (rules) lists {name}, but may list words and rules only");
    assert_eq!(map::report(&tree.root).unwrap().faults, [told("machine (machines)"), told("libc (the kit)")]);
}

#[test]
fn words_may_list_words_only() {
    let tree = Tree::new("map_words");
    tree.put("crates.txt", &CRATES.replace("numbers:\n", "numbers: rule_add\n"));
    let wrong = "crates.txt: numbers (words) lists rule_add (rules), but may list words only";
    assert_eq!(map::report(&tree.root).unwrap().faults, [wrong]);
}

#[test]
fn a_crate_stands_in_a_family() {
    let tree = Tree::new("map_family");
    tree.put("crates.txt", &format!("first:\n{CRATES}"));
    assert_eq!(map::report(&tree.root).unwrap().faults, ["crates.txt: first stands in no family"]);
}

#[test]
fn the_table_has_each_crate_once_and_no_other() {
    let tree = Tree::new("map_table");
    let rows = "| `numbers` | numbers |\n| `rule_add`, `machine` | `add` |\n| `add`, `safety`, `quads` | the rest |\n";
    tree.put("docs/ARCHITECTURE.md", &table(rows));
    assert_eq!(map::table_faults(&tree.root).unwrap(), [""; 0]);
    tree.put("docs/ARCHITECTURE.md", &table(&rows.replace("`machine`", "`add`, `old`")));
    let told = |what: &str| format!("docs/ARCHITECTURE.md: the table has {what}");
    let wrong = [told("machine 0 times"), told("add 2 times"), told("old, which crates.txt has not")];
    assert_eq!(map::table_faults(&tree.root).unwrap(), wrong);
    tree.put("docs/ARCHITECTURE.md", "# A tree\n");
    assert_eq!(map::table_faults(&tree.root).unwrap().len(), 1);
}
