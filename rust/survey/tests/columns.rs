//! Lines that are too wide and functions that are too long.
mod common;
use common::{NUMBERS, Tree};
use survey::columns;

/// A function with so many lines in its body.
fn function(name: &str, lines: usize) -> String {
    format!("fn {name}() -> u32\n    ensures {{ result ≡ 0 }}\n{{\n{}}}\n\n", "    0;\n".repeat(lines))
}

#[test]
fn a_line_may_have_120_characters() {
    let tree = Tree::new("columns_wide");
    let lines = |width: usize| format!("{}\n-- {}\n", NUMBERS, "ℕ".repeat(width - 3));
    tree.put("crates/numbers/specs/Numbers.antt", &lines(120));
    tree.put("crates/add/src/more.rt", &format!("// {}\n", "a".repeat(117)));
    let report = columns::report(&tree.root).unwrap();
    assert_eq!((report.faults, report.text.as_str()), (vec![], "lines over 120 columns: 0; bodies over 40 lines: 0\n"));
    tree.put("crates/numbers/specs/Numbers.antt", &lines(121));
    tree.put("crates/add/src/more.rt", &format!("// {}\n", "a".repeat(118)));
    let wrong = ["crates/numbers/specs/Numbers.antt:13: 121 columns", "crates/add/src/more.rt:1: 121 columns"];
    assert_eq!(columns::report(&tree.root).unwrap().faults, wrong);
}

#[test]
fn a_body_may_have_40_lines() {
    let tree = Tree::new("columns_long");
    tree.put("crates/add/src/more.rt", &format!("{}{}", function("short", 40), function("long", 41)));
    let report = columns::report(&tree.root).unwrap();
    assert_eq!(report.faults, ["crates/add/src/more.rt:46: the body of long has 41 lines"]);
    assert_eq!(report.text, "lines over 120 columns: 0; bodies over 40 lines: 1\n");
}
