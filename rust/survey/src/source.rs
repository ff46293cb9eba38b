//! A file of code, src/NAME.rt.
use crate::imports::{self, Import};
use crate::tokens;

/// A function.
#[derive(Debug, Clone, PartialEq)]
pub struct Function {
    /// Its name.
    pub name: String,
    /// The number of its first line, counted from 1.
    pub line: usize,
    /// Whether other crates may call it.
    pub public: bool,
    /// Whether C may call it.
    pub export: bool,
    /// Its parameters, its result and the clauses of its contract, without the names of the clauses.
    pub contract: String,
    /// How many lines stand between the braces of its body.
    pub body: usize,
}

impl Function {
    /// The clauses of its contract that say what holds behind a call.
    pub fn ensures(&self) -> String {
        let mut inside = false;
        let mut text = String::new();
        for line in self.contract.lines() {
            inside = match CLAUSES.iter().find(|word| line.trim_start().starts_with(**word)) {
                Some(word) => *word == "ensures",
                None => inside,
            };
            if inside {
                text += &format!("{line}\n");
            }
        }
        text
    }
}

/// A type: a struct or an enum.
#[derive(Debug, Clone, PartialEq)]
pub struct Type {
    /// Its name.
    pub name: String,
    /// How many lines it has, with its comment.
    pub lines: usize,
    /// Its text.
    pub text: String,
}

/// What is read of a file.
#[derive(Debug, Default)]
pub struct Source {
    /// The imports of definitions, `ghost use`.
    pub imports: Vec<Import>,
    /// The types that are imported, each with its crate, `use`.
    pub uses: Vec<(String, String)>,
    /// The functions, methods among them.
    pub functions: Vec<Function>,
    /// The types.
    pub types: Vec<Type>,
    /// The text without comments.
    pub code: String,
}

/// Words that begin a clause of a contract.
const CLAUSES: [&str; 2] = ["ensures", "requires"];

/// The blanks that a line begins with.
fn indent(line: &str) -> usize {
    line.len() - line.trim_start().len()
}

/// How many more braces a line opens than it closes.
fn opened(line: &str) -> isize {
    let count = |brace: char| line.chars().filter(|&one| one == brace).count() as isize;
    count('{') - count('}')
}

/// The name of the function that begins at a line.
fn begun(line: &str) -> Option<&str> {
    let line = line.trim_start();
    let line = line.strip_prefix("pub ").unwrap_or(line);
    let line = line.strip_prefix("extern \"C\" ").unwrap_or(line);
    line.strip_prefix("fn ")?.split(['(', '<']).next()
}

/// A line without the name of the clause that begins in it, which is no name of the logic.
fn without_label(line: &str) -> String {
    let begun = CLAUSES.iter().find_map(|word| Some((word, line.trim_start().strip_prefix(word)?.split_once('{')?)));
    match begun {
        Some((word, (_, rest))) => format!("{}{word} {{{rest}", " ".repeat(indent(line))),
        None => line.to_string(),
    }
}

/// The line of the brace that opens the body of the function that begins at a line.
fn body_at(lines: &[&str], first: usize) -> Option<usize> {
    let mut depth = 0;
    for (i, line) in lines.iter().enumerate().skip(first) {
        let clause = CLAUSES.iter().any(|word| line.trim_start().starts_with(word));
        if depth == 0 && !clause && line.contains('{') {
            return Some(i);
        }
        depth += opened(line);
    }
    None
}

/// How many lines stand between the braces of a body whose first brace stands in a line.
fn body_lines(lines: &[&str], open: usize, indentation: usize) -> usize {
    if opened(lines[open]) == 0 {
        return 1;
    }
    let closes = |line: &&str| line.trim() == "}" && indent(line) == indentation;
    lines[open + 1..].iter().position(closes).unwrap_or(0)
}

/// The function of this name that begins at a line.
fn function(lines: &[&str], first: usize, name: &str) -> Option<Function> {
    let open = body_at(lines, first)?;
    let clauses: Vec<String> = lines[first..open].iter().map(|line| without_label(line)).collect();
    let last = lines[open].split('{').next().unwrap_or_default();
    Some(Function {
        name: name.to_string(),
        line: first + 1,
        public: lines[first].trim_start().starts_with("pub "),
        export: lines[first].contains("extern \"C\""),
        contract: format!("{}\n{last}", clauses.join("\n")),
        body: body_lines(lines, open, indent(lines[first])),
    })
}

/// The type that begins at a line.
fn type_at(lines: &[&str], first: usize) -> Option<Type> {
    let line = lines[first].strip_prefix("pub ").unwrap_or(lines[first]);
    let name = line.strip_prefix("struct ").or(line.strip_prefix("enum "))?.split([' ', '{', ';', '<']).next()?;
    let whole = opened(lines[first]) == 0;
    let length = if whole { 1 } else { 1 + lines[first..].iter().position(|line| *line == "}")? };
    let comment = lines[..first].iter().rev().take_while(|line| line.starts_with("//") || line.starts_with("#["));
    let text = lines[first + 1..first + length].join("\n");
    Some(Type { name: name.to_string(), lines: length + comment.count(), text })
}

/// The types that the import which begins at a line brings, `use CRATE::TYPE;` or `use CRATE::{TYPE, ..};`, each with
/// its crate. A list may stand on several lines.
fn used(lines: &[&str], first: usize) -> Vec<(String, String)> {
    let Some(begun) = lines[first].strip_prefix("use ").or(lines[first].strip_prefix("pub use ")) else {
        return vec![];
    };
    let rest = lines[first + 1..].iter().copied().take_while(|_| !begun.contains(';'));
    let end = rest.clone().position(|line| line.contains(';')).map_or(0, |last| last + 1);
    let statement: String = std::iter::once(begun).chain(rest.take(end)).collect();
    let Some((library, path)) = statement.split(';').next().unwrap_or_default().split_once("::") else {
        return vec![];
    };
    let list = path.rsplit_once('{').map_or(path, |(_, list)| list).trim_end_matches('}');
    let names = list.split(',').filter_map(|path| path.trim().rsplit("::").next()).filter(|name| !name.is_empty());
    names.map(|name| (name.to_string(), library.to_string())).collect()
}

impl Source {
    /// What a text says.
    pub fn parse(text: &str) -> Source {
        let code = tokens::without_comments(text, "//");
        let bare: Vec<&str> = code.lines().collect();
        let lines: Vec<&str> = text.lines().collect();
        let functions = bare.iter().enumerate().filter_map(|(i, line)| function(&bare, i, begun(line)?));
        Source {
            imports: imports::imports(text),
            uses: (0..bare.len()).flat_map(|i| used(&bare, i)).collect(),
            functions: functions.collect(),
            types: (0..lines.len()).filter_map(|i| type_at(&lines, i)).collect(),
            code: code.clone(),
        }
    }
}

#[cfg(test)]
mod tests {
    use super::*;

    const FILE: &str = "\
use rule_sheet::report::Counts;
use rule_sheet::{Sheet, Verdict};
use rule_one::{
    Limit,
    Rule,
};
ghost use Rattle.rule_one.specs.Rule.{rule_of};

// An answer.
pub enum Answer {
    Done(Counts),
    Refused(u32),
}

// Answers.
#[unsafe(no_mangle)]
pub extern \"C\" fn answer(
    c: Counts,
) -> Answer
    requires { Asks c }
    ensures sheet { let s = record { counts = c } in
        result ≡ rule_of s }
{
    if c.points == 0 {
        return Answer::Refused(5);
    }
    Answer::Done(c)
}

fn none() -> u32 {
    0
}

fn one() -> u32 { 1 }
";

    #[test]
    fn a_function_has_a_contract_and_a_body() {
        let functions = Source::parse(FILE).functions;
        let bodies: Vec<(&str, usize)> = functions.iter().map(|one| (one.name.as_str(), one.body)).collect();
        assert_eq!(bodies, [("answer", 4), ("none", 1), ("one", 1)]);
        assert!(functions[0].public && functions[0].export && !functions[1].public);
        assert!(functions[0].contract.contains("rule_of s") && functions[0].contract.contains("Asks"));
        assert!(!functions[0].contract.contains("Refused") && !functions[0].contract.contains("sheet"));
        assert!(functions[0].ensures().contains("rule_of s") && !functions[0].ensures().contains("Asks"));
    }

    #[test]
    fn types_are_found_and_whence_others_come() {
        let source = Source::parse(FILE);
        assert_eq!((source.types[0].name.as_str(), source.types[0].lines), ("Answer", 5));
        let uses: Vec<(&str, &str)> = source.uses.iter().map(|(name, library)| (&**name, &**library)).collect();
        let sheet = ["Counts", "Sheet", "Verdict"].map(|name| (name, "rule_sheet"));
        assert_eq!(uses, [&sheet[..], &[("Limit", "rule_one"), ("Rule", "rule_one")]].concat());
        assert_eq!(source.imports.len(), 1);
    }
}
