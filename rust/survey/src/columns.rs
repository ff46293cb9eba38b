//! Widths of lines and lengths of functions.
use crate::Report;
use crate::catalogue::Catalogue;
use crate::files;
use crate::source::Source;
use std::io;
use std::path::Path;

/// The widest line, in characters.
pub const WIDEST: usize = 120;

/// The longest body of a function, in lines between its braces. What stands above it does not count: each parameter and
/// each clause of a contract takes a line there.
pub const LONGEST: usize = 40;

/// The lines of a text that are too wide, each with its file and width.
fn wide(path: &str, text: &str) -> Vec<String> {
    let widths = text.lines().map(|line| line.chars().count()).enumerate();
    widths.filter(|(_, width)| *width > WIDEST).map(|(i, width)| format!("{path}:{}: {width} columns", i + 1)).collect()
}

/// The functions of a text that are too long, each with its file and length.
fn long(path: &str, text: &str) -> Vec<String> {
    let functions = Source::parse(text).functions;
    let found = functions.iter().filter(|one| one.body > LONGEST);
    found.map(|one| format!("{path}:{}: the body of {} has {} lines", one.line, one.name, one.body)).collect()
}

/// All lines and functions of src/ and specs/ that are too wide or too long.
pub fn report(root: &Path) -> io::Result<Report> {
    let (mut lines, mut bodies) = (vec![], vec![]);
    for one in Catalogue::read(root)?.crates {
        let folder = root.join("crates").join(&one.name);
        for path in files::below(&folder.join("src"), "rt")? {
            let text = files::text(&path)?;
            lines.extend(wide(&files::from_root(root, &path), &text));
            bodies.extend(long(&files::from_root(root, &path), &text));
        }
        for path in files::below(&folder.join("specs"), "antt")? {
            lines.extend(wide(&files::from_root(root, &path), &files::text(&path)?));
        }
    }
    let text = format!("lines over {WIDEST} columns: {}; bodies over {LONGEST} lines: {}\n", lines.len(), bodies.len());
    lines.extend(bodies);
    Ok(Report { text, faults: lines })
}
