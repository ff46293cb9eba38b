//! Documents that a program writes, whole or between two marks, and the comparison of what stands there with what would
//! be written.
use crate::Report;
use crate::files;
use std::io;
use std::path::Path;

/// A document, or the part of it between two marks, that is written by a tool.
#[derive(Debug, Clone, Copy)]
pub struct Document {
    /// Its path from the root.
    pub path: &'static str,
    /// The lines between which the tool writes; none where it writes all.
    pub marks: Option<(&'static str, &'static str)>,
    /// The tool.
    pub tool: &'static str,
}

/// The text before the first mark and with it, between the marks, and from the second mark on.
pub fn parts<'a>(text: &'a str, (first, last): (&str, &str)) -> Option<(&'a str, &'a str, &'a str)> {
    let start = text.find(first)? + first.len() + 1;
    let end = start + text.get(start..)?.find(last)?;
    Some((&text[..start], &text[start..end], &text[end..]))
}

/// The number of the first line in which two texts differ.
fn first_difference(one: &str, other: &str) -> usize {
    1 + one.lines().zip(other.lines()).take_while(|(one, other)| one == other).count()
}

impl Document {
    /// The document as it would be with this text in it; none where the marks are missing.
    fn with(&self, old: &str, text: &str) -> Option<String> {
        let Some(marks) = self.marks else {
            return Some(text.to_string());
        };
        parts(old, marks).map(|(before, _, behind)| format!("{before}{text}{behind}"))
    }

    /// The document as it stands, and as it would be with this text in it.
    fn old_and_new(&self, root: &Path, text: &str) -> io::Result<(String, Option<String>)> {
        let path = root.join(self.path);
        let old = if path.is_file() { files::text(&path)? } else { String::new() };
        let new = self.with(&old, text);
        Ok((old, new))
    }

    /// What is wrong where the marks are missing.
    fn unmarked(&self) -> String {
        format!("{}: the marks {:?} are missing", self.path, self.marks.unwrap_or_default())
    }

    /// Adds to the faults of a report that the document is not what the report says.
    pub fn compare(&self, root: &Path, report: &mut Report) -> io::Result<()> {
        let (old, new) = self.old_and_new(root, &report.text)?;
        match new {
            None => report.faults.push(self.unmarked()),
            Some(new) if new != old => {
                let line = first_difference(&old, &new);
                report.faults.push(format!(
                    "{}:{line}: not what {tool} prints: run {tool} --write",
                    self.path,
                    tool = self.tool
                ));
            }
            Some(_) => {}
        }
        Ok(())
    }

    /// Writes the text of a report into the document.
    pub fn write(&self, root: &Path, report: &mut Report) -> io::Result<()> {
        match self.old_and_new(root, &report.text)? {
            (_, None) => report.faults.push(self.unmarked()),
            (_, Some(new)) => std::fs::write(root.join(self.path), new)?,
        }
        Ok(())
    }
}

#[cfg(test)]
mod tests {
    use super::*;

    #[test]
    fn a_text_between_marks_is_replaced() {
        let document = Document { path: "", marks: Some(("<a>", "</a>")), tool: "" };
        assert_eq!(document.with("x\n<a>\nold\n</a>\ny\n", "new\n").unwrap(), "x\n<a>\nnew\n</a>\ny\n");
        assert_eq!(document.with("x\n<a>\nold\n", "new\n"), None);
        assert_eq!(first_difference("a\nb\nc", "a\nb\nd"), 3);
    }
}
