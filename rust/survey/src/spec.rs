//! A file of definitions, specs/NAME.antt.
use crate::imports::{self, Import};
use crate::tokens;

/// A definition.
#[derive(Debug, Clone, PartialEq)]
pub struct Definition {
    /// Its name; `◌` stands where an operator has its operands.
    pub name: String,
    /// The number of its first line, counted from 1, without the comment above it.
    pub line: usize,
    /// How many lines it has, with its comment.
    pub lines: usize,
    /// How many of them are not comments.
    pub code: usize,
    /// How many lines it would have if none were broken.
    pub unbroken: usize,
    /// Its text without comments, and the head of the module around it.
    pub text: String,
    /// The constructors of a data type.
    pub constructors: Vec<String>,
}

/// What is read of a file.
#[derive(Debug, Default)]
pub struct Spec {
    /// The comment that the file begins with.
    pub head: String,
    /// The imports.
    pub imports: Vec<Import>,
    /// The definitions, in the order of the file.
    pub definitions: Vec<Definition>,
    /// How many lines the file has.
    pub lines: usize,
}

/// Words that begin a line which belongs to no definition.
const BETWEEN: [&str; 6] = ["module ", "open ", "use ", "pub use ", "pub mod ", "infix"];

fn is_comment(line: &str) -> bool {
    line.trim_start().starts_with("--")
}

/// A comment over a part of the file, not over one definition.
fn is_title(line: &str) -> bool {
    line.trim_start().starts_with("-- ----")
}

fn is_between(line: &str) -> bool {
    BETWEEN.iter().any(|word| line.trim_start().starts_with(word))
}

fn is_fixity(line: &str) -> bool {
    line.trim_start().starts_with("infix")
}

fn is_indented(line: &str) -> bool {
    line.starts_with(' ')
}

/// The name of the definition that begins at a line.
fn begun(line: &str) -> Option<&str> {
    let mut words = line.split_whitespace().peekable();
    let (mut public, mut open) = (false, false);
    while let Some(&word) = words.peek() {
        match word {
            "pub" => public = true,
            "unfoldable" | "abbrev" => open = true,
            _ => break,
        }
        words.next();
    }
    let outer = !is_indented(line);
    let (first, second) = (words.next()?, words.next());
    match first {
        "record" | "data" => second.filter(|name| (public || outer) && *name != "{"),
        _ => Some(first).filter(|_| (open || public && outer) && matches!(second, Some(":") | None)),
    }
}

/// The constructors in the text of a data type.
fn constructors(lines: &[&str]) -> Vec<String> {
    let is_data = lines[0].split_whitespace().any(|word| word == "data");
    let named = |line: &&str| {
        let (names, _) = line.trim_start().trim_start_matches("pub ").split_once(" :")?;
        Some(names.split_whitespace().map(String::from).collect::<Vec<_>>())
    };
    let plain = |names: &Vec<String>| names.iter().all(|name| !name.contains(['(', '→', '{']));
    let bodies = lines.iter().skip(1).filter(|line| is_data && !is_comment(line));
    bodies.filter_map(named).filter(plain).flatten().collect()
}

/// The first line of the comment above a line.
fn with_comment(lines: &[&str], line: usize) -> usize {
    let belongs = |line: &&str| is_fixity(line) || is_comment(line) && !is_title(line);
    line - lines[..line].iter().rev().take_while(|line| belongs(line)).count()
}

/// The line behind the definition that begins at a line.
fn end(lines: &[&str], line: usize) -> usize {
    let rest = &lines[line + 1..];
    let most = rest.iter().position(|line| begun(line).is_some() || is_between(line)).unwrap_or(rest.len());
    let idle = |line: &&&str| line.trim().is_empty() || is_comment(line);
    line + 1 + most - rest[..most].iter().rev().take_while(idle).count()
}

/// How many columns a line is indented by.
fn indentation(line: &str) -> usize {
    line.len() - line.trim_start().len()
}

/// How many of these lines there would be if none were broken: a comment goes on in the next one, and a line that is
/// indented by four columns more than the definition goes on with the one before.
fn unbroken(lines: &[&str], own: usize) -> usize {
    let goes_on = |i: usize| match is_comment(lines[i]) {
        true => i > 0 && is_comment(lines[i - 1]),
        false => indentation(lines[i]) >= own + 4,
    };
    (0..lines.len()).filter(|i| !lines[*i].trim().is_empty() && !goes_on(*i)).count()
}

/// The definition of this name that begins at a line; `around` is the head of the module around it.
fn definition(lines: &[&str], line: usize, name: &str, around: &str) -> Definition {
    let body = &lines[line..end(lines, line)];
    let own = tokens::without_comments(&body.join("\n"), "--");
    let first = with_comment(lines, line);
    Definition {
        name: name.to_string(),
        line: line + 1,
        lines: line + body.len() - first,
        unbroken: unbroken(&lines[first..line + body.len()], indentation(lines[line])),
        code: own.lines().filter(|line| !line.trim().is_empty()).count(),
        text: format!("{own}\n{around}"),
        constructors: constructors(body),
    }
}

/// All definitions of a file.
fn definitions(lines: &[&str]) -> Vec<Definition> {
    let mut around = String::new();
    let mut in_head = false;
    let mut found = vec![];
    for (i, line) in lines.iter().enumerate() {
        if line.starts_with("module ") {
            around.clear();
            in_head = true;
        }
        if in_head || line.trim_start().starts_with("open ") {
            around = format!("{around}\n{line}");
            in_head = in_head && !line.trim_end().ends_with("where");
        }
        if let Some(name) = begun(line) {
            if !is_indented(line) {
                around.clear();
            }
            found.push(definition(lines, i, name, &around));
        }
    }
    found
}

impl Spec {
    /// What a text says.
    pub fn parse(text: &str) -> Spec {
        let lines: Vec<&str> = text.lines().collect();
        let head = lines.iter().take_while(|line| is_comment(line)).map(|line| line.trim_start_matches('-').trim());
        Spec {
            head: head.collect::<Vec<_>>().join(" "),
            imports: imports::imports(text),
            definitions: definitions(&lines),
            lines: lines.len(),
        }
    }
}

#[cfg(test)]
mod tests {
    use super::*;

    const FILE: &str = "\
-- What two lines say. Not a rule: an example
-- of two lines.
use Rattle.std.specs.Prelude.{ltb}

-- ---- a part

infixl 65 ◌⊕◌
-- the sum
abbrev pub ◌⊕◌ : ℕ → ℕ → ℕ
◌⊕◌ a b = a + b

-- an answer
pub data Answer (A : Type 0) : Type 0 where
  -- none
  refuses : ℕ → Answer A
  gives : (a : A)
    → Answer A

module _ (limit : Limit) where
  open Limit limit use {most}

  unfoldable pub inner : ℕ
  inner = most -- the most

pub record Pair : Type 0 where
  pub left : ℕ

unfoldable pub pair : Pair
pair =
    record { left = 1 }
";

    fn named<'a>(spec: &'a Spec, name: &str) -> &'a Definition {
        spec.definitions.iter().find(|one| one.name == name).unwrap()
    }

    #[test]
    fn definitions_are_found_with_their_comments() {
        let spec = Spec::parse(FILE);
        let names: Vec<&str> = spec.definitions.iter().map(|one| one.name.as_str()).collect();
        assert_eq!(names, ["◌⊕◌", "Answer", "inner", "Pair", "pair"]);
        let counts: Vec<[usize; 3]> = spec.definitions.iter().map(|one| [one.lines, one.code, one.unbroken]).collect();
        assert_eq!(counts, [[4, 2, 4], [6, 4, 5], [2, 2, 2], [2, 2, 2], [3, 3, 2]]);
        assert_eq!(spec.head, "What two lines say. Not a rule: an example of two lines.");
    }

    #[test]
    fn a_data_type_has_constructors_and_a_module_hands_its_head_on() {
        let spec = Spec::parse(FILE);
        assert_eq!(named(&spec, "Answer").constructors, ["refuses", "gives"]);
        assert_eq!(named(&spec, "Pair").constructors, [""; 0]);
        assert!(named(&spec, "inner").text.contains("Limit"));
        assert!(!named(&spec, "inner").text.contains("the most"));
        assert!(!named(&spec, "Pair").text.contains("Limit"));
    }
}
