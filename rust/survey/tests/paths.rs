//! Paths in documents.
mod common;
use common::Tree;
use survey::paths;

#[test]
fn a_path_that_a_document_names_exists() {
    let tree = Tree::new("paths");
    tree.put("README.md", "`crates/NAME/specs`, [Rule](crates/rule_add/specs/Rule.antt) and add/src/lib.rt.\n");
    tree.put("docs/ORDER.md", "See ../crates/safety/specs, docs/ORDER.md and safety/specs/Claim.antt.\n");
    let report = paths::report(&tree.root).unwrap();
    let told = "documents: 2; paths and names that do not exist: 0\n";
    assert_eq!((report.faults, report.text.as_str()), (vec![], told));
    tree.put("README.md", "\n`crates/gone`, add/src/lib.rt.\n");
    tree.put("docs/ORDER.md", "add/proofs/Gone.antt (docs/GONE.md)\n");
    let wrong = [
        "README.md:2: crates/gone does not exist",
        "docs/ORDER.md:1: crates/add/proofs/Gone.antt does not exist",
        "docs/ORDER.md:1: docs/GONE.md does not exist",
    ];
    assert_eq!(paths::report(&tree.root).unwrap().faults, wrong);
}

#[test]
fn a_name_in_backquotes_stands_in_the_tree() {
    let tree = Tree::new("paths_names");
    tree.put("README.md", "`add_rule` and `add::add` of `rule_add`, `rule_`, `rule_NAME`, `a - b`, not `add_rules`.\n");
    assert_eq!(paths::report(&tree.root).unwrap().faults, ["README.md:1: `add_rules` stands nowhere in the tree"]);
    tree.put("rust/tool/src/lib.rs", "//! add_rules\n");
    assert_eq!(paths::report(&tree.root).unwrap().faults, [""; 0]);
    tree.put("rust/tool/CACHEDIR.TAG", "");
    assert_eq!(paths::report(&tree.root).unwrap().faults.len(), 1);
}
