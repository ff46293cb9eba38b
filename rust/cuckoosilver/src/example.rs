//! The embedded example: a core from drawing to display.
use crate::display::print;
use crate::invocation::steps;
use crate::pipeline::Pipeline;
use crate::problem::Problem;
use std::fs;
use std::io::Write;
use std::path::Path;

/// A shell of a ball, cut open, drawn, cleaned up and measured.
const STEPS: &str = "--ball 0 0 0 0 --box -1 -1 -1 1 1 0.2 --levels 0.36 0.81 \
    draw 12 coarsen 6 regularize 6 improve 2 subdivide quality display";

/// The files that the example leaves in a folder.
const FILES: [(&str, &str); 4] =
    [("write", "core.ply"), ("save", "core.job"), ("picture", "core.svg"), ("picture", "core.png")];

/// Runs the example. Its files go to the folder, if one is named.
pub fn run(folder: Option<&Path>, out: &mut dyn Write, log: &mut dyn Write) -> Result<(), Problem> {
    let mut words: Vec<String> = STEPS.split_whitespace().map(String::from).collect();
    print(out, &format!("cuckoosilver {}\n\n", words.join(" ")))?;
    let last = if let Some(folder) = folder {
        fs::create_dir_all(folder).map_err(|error| Problem::file(folder, error))?;
        for (step, file) in FILES {
            words.extend([step.to_string(), folder.join(file).display().to_string()]);
        }
        format!("\ncore.ply, core.job, core.svg and core.png are in {}\n", folder.display())
    } else {
        "\n`cuckoosilver example FOLDER` leaves this sheet and its pictures in a folder.\n".into()
    };
    Pipeline::new(out, log).run(&steps(&words)?)?;
    print(out, &last)
}
