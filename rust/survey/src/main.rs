//! survey: looks at the tree of the library as text. The folder in which it runs is the root of the tree.
#![deny(missing_docs)]
use std::io;
use std::path::Path;
use std::process::ExitCode;
use survey::document::Document;
use survey::{Report, believe, call, columns, map, paths, reading};

/// How it is called.
const USAGE: &str = "survey believe [--write | --check]   what a reader must believe, docs/READING.md
survey map [--write | --check]       the families of crates, and the tables of docs/ARCHITECTURE.md
survey columns                       lines and functions that are too long
survey paths                         paths and names in the documents that do not exist";

/// The report, after the document was compared with it or written where that is asked for.
fn with_document(root: &Path, mut report: Report, document: &Document, option: Option<&str>) -> io::Result<Report> {
    match option {
        Some("--check") => document.compare(root, &mut report)?,
        Some("--write") => document.write(root, &mut report)?,
        _ => return Ok(report),
    }
    report.text.clear();
    Ok(report)
}

/// The map; with an option also the two tables of its document, of crates and of one call.
fn map_report(root: &Path, option: Option<&str>) -> io::Result<Report> {
    let mut report = with_document(root, map::report(root)?, &map::PICTURE, option)?;
    if option.is_some() {
        report.faults.extend(with_document(root, call::report(root)?, &call::TABLE, option)?.faults);
        report.faults.extend(map::table_faults(root)?);
    }
    Ok(report)
}

/// What the words of the command line ask for; none where they are wrong.
fn run(root: &Path, words: &[&str]) -> io::Result<Option<Report>> {
    let report = match words {
        ["columns"] => columns::report(root)?,
        ["paths"] => paths::report(root)?,
        ["map"] => map_report(root, None)?,
        ["map", option @ ("--write" | "--check")] => map_report(root, Some(option))?,
        ["believe"] => believe::report(root)?,
        ["believe", option @ ("--write" | "--check")] => {
            with_document(root, believe::report(root)?, &reading::PAGE, Some(option))?
        }
        _ => return Ok(None),
    };
    Ok(Some(report))
}

/// Prints a report: its text on standard output, its faults on standard error.
fn show(report: &Report) -> ExitCode {
    print!("{}", report.text);
    report.faults.iter().for_each(|fault| eprintln!("{fault}"));
    if report.faults.is_empty() { ExitCode::SUCCESS } else { ExitCode::FAILURE }
}

fn main() -> ExitCode {
    let words: Vec<String> = std::env::args().skip(1).collect();
    let words: Vec<&str> = words.iter().map(String::as_str).collect();
    match run(Path::new("."), &words) {
        Ok(Some(report)) => show(&report),
        Ok(None) => {
            eprintln!("{USAGE}");
            ExitCode::from(2)
        }
        Err(error) => {
            eprintln!("survey: {error}");
            ExitCode::FAILURE
        }
    }
}
