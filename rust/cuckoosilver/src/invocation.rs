//! What the command line asks for: help, the embedded example, or steps.
use crate::display::print;
use crate::example;
use crate::help;
use crate::pipeline::Pipeline;
use crate::problem::Problem;
use crate::step::{self, Action, Step};
use std::io::Write;
use std::path::PathBuf;

/// What a command line asks for.
#[derive(Debug, PartialEq)]
pub enum Invocation {
    /// Print the help.
    Help,
    /// Print name and version.
    Version,
    /// Run the embedded example, and leave its files in a folder if one is named.
    Example(Option<PathBuf>),
    /// Run steps.
    Steps(Vec<Step>),
}

impl Invocation {
    /// What the words of a command line ask for.
    pub fn parse(words: &[String]) -> Result<Invocation, Problem> {
        let texts: Vec<&str> = words.iter().map(String::as_str).collect();
        match texts[..] {
            _ if texts.iter().any(|&word| word == "--help" || word == "-h") => Ok(Invocation::Help),
            _ if texts.contains(&"--version") => Ok(Invocation::Version),
            [] | ["example"] => Ok(Invocation::Example(None)),
            ["example", folder] if !folder.starts_with('-') => Ok(Invocation::Example(Some(folder.into()))),
            ["example", ..] => Err(Problem::Usage("example takes one folder at most, and no options".into())),
            _ => steps(words).map(Invocation::Steps),
        }
    }

    /// Does what is asked for.
    pub fn run(&self, out: &mut dyn Write, log: &mut dyn Write) -> Result<(), Problem> {
        match self {
            Invocation::Help => print(out, help::TEXT),
            Invocation::Version => print(out, concat!("cuckoosilver ", env!("CARGO_PKG_VERSION"), "\n")),
            Invocation::Example(folder) => example::run(folder.as_deref(), out, log),
            Invocation::Steps(steps) => Pipeline::new(out, log).run(steps),
        }
    }
}

/// The steps of a command line. The first that has to do with a sheet brings one. There need be no such step where
/// there is a `sum`.
pub fn steps(words: &[String]) -> Result<Vec<Step>, Problem> {
    let steps = step::parse(words)?;
    at_most_once(&steps, Step::takes_input, "standard input holds one file")?;
    at_most_once(&steps, Step::fills_output, "standard output takes one sheet")?;
    let sums = steps.iter().any(|step| matches!(step.action, Action::Sum(_)));
    match steps.iter().map(|step| &step.action).find(|action| action.is_of_the_sheet()) {
        Some(Action::Run(operation)) if operation.brings_sheet() => Ok(steps),
        None if sums => Ok(steps),
        _ => Err(Problem::Usage("there is no sheet: begin with draw CELLS, read FILE or open FILE".into())),
    }
}

/// An error, with its reason, where there are two such steps.
fn at_most_once(steps: &[Step], is_such: fn(&Step) -> bool, why: &str) -> Result<(), Problem> {
    let texts: Vec<&str> = steps.iter().filter(|step| is_such(step)).map(|step| step.text.as_str()).collect();
    if texts.len() < 2 {
        return Ok(());
    }
    Err(Problem::Usage(format!("{} do not go together; {why}", texts.join(" and "))))
}

#[cfg(test)]
mod tests {
    use super::*;

    fn parse(text: &str) -> Result<Invocation, Problem> {
        Invocation::parse(&text.split_whitespace().map(String::from).collect::<Vec<_>>())
    }

    #[test]
    fn no_word_is_the_example() {
        assert_eq!(parse(""), Ok(Invocation::Example(None)));
        assert_eq!(parse("example there"), Ok(Invocation::Example(Some("there".into()))));
    }

    #[test]
    fn help_is_asked_for_anywhere() {
        assert_eq!(parse("draw 8 --help"), Ok(Invocation::Help));
        assert_eq!(parse("-h"), Ok(Invocation::Help));
    }

    #[test]
    fn an_option_is_no_folder() {
        assert_eq!(parse("example --help"), Ok(Invocation::Help));
        assert_eq!(parse("example --version"), Ok(Invocation::Version));
        assert!(matches!(parse("example --quiet"), Err(Problem::Usage(_))));
    }

    #[test]
    fn standard_input_and_output_hold_one_sheet_each() {
        assert!(parse("read - write - read a.ply write a.ply").is_ok());
        assert!(parse("open - save - open a.job save a.job").is_ok());
        for wrong in ["read - read -", "draw 8 write - write -", "read - open -", "draw 8 write - save -"] {
            assert!(matches!(parse(wrong), Err(Problem::Usage(_))), "{wrong}");
        }
        assert!(parse("sum - draw 8 save -").is_ok());
        for wrong in ["sum - sum -", "sum - open -", "read - sum -"] {
            assert!(matches!(parse(wrong), Err(Problem::Usage(_))), "{wrong}");
        }
    }

    #[test]
    fn a_sum_needs_no_sheet_and_brings_none() {
        for right in ["sum a.job", "--quiet sum a.job sum b.job", "sum a.job open a.job page", "draw 8 sum a.job"] {
            assert!(parse(right).is_ok(), "{right}");
        }
        for wrong in ["sum a.job page", "sum a.job refine", "sum a.job save b.job", "page sum a.job"] {
            assert!(matches!(parse(wrong), Err(Problem::Usage(_))), "{wrong}");
        }
    }

    #[test]
    fn a_sheet_comes_first() {
        assert!(parse("draw 8 refine").is_ok() && parse("open a.job refine").is_ok());
        for wrong in ["refine", "quality draw 8", "corners draw 8", "--levels 1 2", "page read a.ply", "save a.job"] {
            assert!(matches!(parse(wrong), Err(Problem::Usage(_))), "{wrong}");
        }
    }
}
