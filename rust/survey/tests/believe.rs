//! What must be believed of a small tree, and the trees that are refused.
mod common;
use common::{ADD, CLAIM, CRATES, QUADS, RULE, Tree};
use survey::believe;

/// What is wrong with a tree.
fn faults(tree: &Tree) -> Vec<String> {
    believe::report(&tree.root).unwrap().faults
}

#[test]
fn a_tree_is_read_from_its_words_to_its_claims() {
    let tree = Tree::new("believe_all");
    let report = believe::report(&tree.root).unwrap();
    assert_eq!(report.faults, [""; 0]);
    let sections: Vec<&str> = report.text.lines().filter_map(|line| line.strip_prefix("## ")).collect();
    assert_eq!(sections, ["Where it begins", "The order", "numbers", "rule_add", "safety", "The kit"]);
    for line in [
        "| operations: `add::add` | 4 | 13 | 13 | 8 |",
        "| exports: `quads::quads_add` | 4 | 13 | 13 | 8 |",
        "| claims of crates/safety/specs | 2 | 6 | 6 | 4 |",
        "| all | 5 | 16 | 16 | 10 |",
        "The folders specs/ of all crates have 7 definitions in 38 lines.",
        "- [Numbers](../crates/numbers/specs/Numbers.antt), 1 definition of 2, 4 lines. Whole numbers.",
        "  `◌⊕◌` 4",
        "  `Outcome` 3, `add_rule` 3, `Limit` 3",
        "- types of the code, [lib.rt](../crates/rule_add/src/lib.rt): `Answer` 4",
        "- `Rattle.std.specs.Prelude`: `ℕ`, `◌+◌`, `◌≡◌`",
    ] {
        assert!(report.text.lines().any(|one| one == line), "{line}\n{}", report.text);
    }
}

#[test]
fn what_is_believed_stands_in_words_rules_or_claims() {
    let tree = Tree::new("believe_machine");
    let contract =
        ADD.replace("specs.Rule.{add_rule}", "specs.Rule.{add_rule};\nghost use Rattle.machine.specs.Steps.{step}");
    tree.put("crates/add/src/lib.rt", &contract.replace("add_rule\n        a b", "add_rule step step"));
    let wrong =
        "crates/machine/specs/Steps.antt:2: step is believed, but machine is neither words nor a rule nor a claim";
    assert_eq!(faults(&tree), [wrong]);
}

#[test]
fn a_rule_is_cited_or_its_file_says_that_it_is_none() {
    let tree = Tree::new("believe_rule");
    let law = "\nabbrev pub law : ℕ\nlaw = 1\n";
    tree.put("crates/rule_add/specs/Laws.antt", &format!("-- Laws.{law}"));
    assert_eq!(faults(&tree).len(), 1);
    assert!(faults(&tree)[0].starts_with("crates/rule_add/specs/Laws.antt:2: law is cited by no contract"));
    tree.put("crates/rule_add/specs/Laws.antt", &format!("-- Laws.\n-- Not a rule: laws.{law}"));
    assert_eq!(faults(&tree), [""; 0]);
    tree.put("crates/rule_add/specs/Rule.antt", &format!("-- Not a rule.\n{RULE}"));
    assert_eq!(faults(&tree).len(), 3);
    assert!(faults(&tree)[0].ends_with("is believed, but the head of its file says \"Not a rule\""));
}

#[test]
fn a_name_that_is_handed_on_is_followed() {
    let tree = Tree::new("believe_handed_on");
    let handed_on = "-- All rules.\npub use Rattle.rule_add.specs.Rule.{add_rule as adding}\n";
    tree.put("crates/rule_add/specs/All.antt", handed_on);
    tree.put("crates/quads/src/lib.rt", &QUADS.replace("specs.Rule as", "specs.All as").replace("add_rule", "adding"));
    let report = believe::report(&tree.root).unwrap();
    assert_eq!(report.faults, [""; 0]);
    assert!(report.text.contains("| exports: `quads::quads_add` | 4 | 13 | 13 | 8 |"), "{}", report.text);
}

#[test]
fn the_static_library_over_the_face_has_the_exports() {
    let tree = Tree::new("believe_static");
    tree.put("crates.txt", &format!("{CRATES}quads_c staticlib: rule_add quads\n"));
    tree.put("crates/quads/src/lib.rt", &QUADS.replace("pub extern \"C\" fn", "pub fn"));
    tree.put("crates/quads_c/src/lib.rt", &QUADS.replace("add::add", "quads::quads_add"));
    let report = believe::report(&tree.root).unwrap();
    assert_eq!(report.faults, [""; 0]);
    assert!(report.text.contains("| exports: `quads_c::quads_add` | 4 | 13 | 13 | 8 |"), "{}", report.text);
}

#[test]
fn the_name_of_a_clause_is_no_citation() {
    let tree = Tree::new("believe_clause");
    let one = QUADS.replace(" as rules", ".{add_rule as rules}").replace("rules.add_rule a b", "a");
    tree.put("crates/quads/src/lib.rt", &one.replace("ensures {", "ensures rules {"));
    let report = believe::report(&tree.root).unwrap();
    assert_eq!(report.faults, [""; 0]);
    assert!(report.text.contains("| exports: `quads::quads_add` | 0 | 0 | 0 | 0 |"), "{}", report.text);
}

#[test]
fn an_import_that_is_not_found_is_told() {
    let tree = Tree::new("believe_lost");
    tree.put("crates/safety/specs/Claim.antt", &CLAIM.replace("{Outcome,", "{Outcome, other,"));
    assert_eq!(faults(&tree), ["crates/safety/specs/Claim.antt: the import other is not found"]);
    let tree = Tree::new("believe_lost_module");
    tree.put("crates/quads/src/lib.rt", &QUADS.replace("rules.add_rule", "rules.other (rules.add_rule)"));
    assert_eq!(faults(&tree), ["crates/quads/src/lib.rt: rules.other is not found"]);
    tree.put("crates/quads/src/lib.rt", &QUADS.replace("rules.add_rule a b", "rules.add_rule.most"));
    assert_eq!(faults(&tree), [""; 0]);
    let tree = Tree::new("believe_lost_crate");
    tree.put("crates/safety/specs/Claim.antt", &CLAIM.replace("rule_add", "gone"));
    let told = |name: &str| format!("crates/safety/specs/Claim.antt: the import {name} is not found");
    assert_eq!(faults(&tree), [told("Outcome"), told("gives")]);
}

#[test]
fn a_door_without_a_face_and_a_tree_without_exports_or_claims_are_told() {
    let tree = Tree::new("believe_missing");
    tree.put("crates.txt", &format!("{CRATES}\n# doors\nother:\n"));
    tree.put("crates/other/src/lib.rt", "pub fn other() -> u32 {\n    1\n}\n");
    assert_eq!(faults(&tree), ["crates/other: no crate of the faces calls a public function of it"]);
    let tree = Tree::new("believe_nothing");
    tree.put("crates.txt", "# words\nnumbers:\n");
    assert_eq!(faults(&tree), ["crates/quads: no export is found", "crates/safety/specs: no claim is found"]);
}
