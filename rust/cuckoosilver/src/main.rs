//! cuckoosilver: draws, cleans up, measures and shows labelled quad sheets.

mod band;
mod defects;
mod display;
mod example;
mod help;
mod invocation;
mod labels;
mod operation;
mod picture;
mod pipeline;
mod place;
mod ply;
mod problem;
mod replace;
mod setting;
mod spelling;
mod step;
mod words;

use invocation::Invocation;
use problem::Problem;
use std::io::Write;
use std::process::ExitCode;

/// The words of the command line.
fn words() -> Result<Vec<String>, Problem> {
    let text = |word: std::ffi::OsString| {
        word.into_string().map_err(|word| Problem::Usage(format!("{} is not text", word.to_string_lossy())))
    };
    std::env::args_os().skip(1).map(text).collect()
}

/// Reads the command line and does what it says, results on standard output, progress on standard error.
fn run() -> Result<(), Problem> {
    let invocation = Invocation::parse(&words()?)?;
    invocation.run(&mut std::io::stdout().lock(), &mut std::io::stderr())
}

fn main() -> ExitCode {
    match run() {
        Ok(()) => ExitCode::SUCCESS,
        Err(problem) => {
            if problem != Problem::Closed {
                let _ = writeln!(std::io::stderr(), "cuckoosilver: {problem}");
            }
            ExitCode::from(problem.exit_code())
        }
    }
}
