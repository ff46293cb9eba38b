//! What can go wrong, and how it is told.
use quads::Refused;
use std::fmt;
use std::io::{self, ErrorKind};
use std::path::{Path, PathBuf};

/// A problem that ends the program.
#[derive(Debug, PartialEq)]
pub enum Problem {
    /// The command line is wrong: exit code 2.
    Usage(String),
    /// A step was refused: exit code 1.
    Refused {
        /// The step as it was written.
        step: String,
        /// Why and where.
        refused: Refused,
    },
    /// The step `check` found a sheet that is not valid, by these counts: exit code 1.
    Invalid(String),
    /// A file cannot be read or written: exit code 1.
    File {
        /// The file.
        path: PathBuf,
        /// What is wrong.
        what: String,
    },
    /// Nobody reads on what is written into a pipe, which is no fault and is not told: exit code 141.
    Closed,
}

impl Problem {
    /// A problem with a file.
    pub fn file(path: &Path, what: impl fmt::Display) -> Problem {
        Problem::File { path: path.to_path_buf(), what: what.to_string() }
    }

    /// A problem in writing a file, or a pipe.
    pub fn written(path: &Path, error: &io::Error) -> Problem {
        if error.kind() == ErrorKind::BrokenPipe { Problem::Closed } else { Problem::file(path, error) }
    }

    /// The same problem, met at a step.
    pub fn at(self, text: &str) -> Problem {
        match self {
            Problem::Refused { refused, .. } => Problem::Refused { step: text.into(), refused },
            other => other,
        }
    }

    /// The exit code: 2 for a wrong command line, that of a program which a closed pipe ends, 1 for all else.
    pub fn exit_code(&self) -> u8 {
        match self {
            Problem::Usage(_) => 2,
            Problem::Refused { .. } | Problem::Invalid(_) | Problem::File { .. } => 1,
            Problem::Closed => 141,
        }
    }
}

impl From<Refused> for Problem {
    fn from(refused: Refused) -> Problem {
        Problem::Refused { step: "the step".into(), refused }
    }
}

impl fmt::Display for Problem {
    fn fmt(&self, f: &mut fmt::Formatter<'_>) -> fmt::Result {
        match self {
            Problem::Usage(what) => write!(f, "{what}\n`cuckoosilver --help` tells the steps and options"),
            Problem::Refused { step, refused } => {
                write!(f, "{step} is refused: {refused}\nwhat to do: {}", refused.advice())
            }
            Problem::Invalid(counts) => write!(f, "the sheet is not valid: {counts}"),
            Problem::File { path, what } => write!(f, "{}: {what}", path.display()),
            Problem::Closed => write!(f, "nobody reads on"),
        }
    }
}

#[cfg(test)]
mod tests {
    use super::*;
    use quads::Refusal;

    #[test]
    fn a_refusal_is_told_with_number_word_and_advice() {
        let problem = Problem::from(Refused::from(Refusal::Cells)).at("draw 3");
        assert_eq!(
            problem.to_string(),
            "draw 3 is refused: 3 cells: the number of cells is not from 4 to 128\nwhat to do: draw with 4 to 128 cells"
        );
        assert_eq!(problem.exit_code(), 1);
    }

    #[test]
    fn a_wrong_command_line_is_told_with_the_way_to_help() {
        let problem = Problem::Usage("no sheet".into());
        assert!(problem.to_string().starts_with("no sheet\n"));
        assert_eq!(problem.exit_code(), 2);
    }

    #[test]
    fn a_closed_pipe_is_no_file_that_cannot_be_written() {
        let path = Path::new("a.ply");
        assert_eq!(Problem::written(path, &ErrorKind::BrokenPipe.into()), Problem::Closed);
        assert!(matches!(Problem::written(path, &ErrorKind::StorageFull.into()), Problem::File { .. }));
    }
}
