//! The steps that bring, change, check, write or draw the sheet.
use crate::place::Place;
use crate::problem::Problem;
use crate::words::Words;
use std::path::{Path, PathBuf};

/// What such a step does.
#[derive(Clone, Debug, PartialEq)]
pub enum Operation {
    /// Draws the sheet around the band.
    Draw(usize),
    /// Reads a sheet.
    Read(Place),
    /// Opens a job.
    Open(Place),
    /// Makes each quad four.
    Refine,
    /// Refines, smooths and projects.
    Subdivide,
    /// Adds rows along the borders between labels.
    Rows,
    /// Swaps edges, in so many passes.
    Regularize(usize),
    /// Swaps edges for better shapes too.
    Improve(usize),
    /// Merges corners.
    Coarsen(usize),
    /// Asks whether the sheet is valid.
    Check,
    /// Writes the sheet.
    Write(Place),
    /// Saves the job.
    Save(Place),
    /// Draws a picture of the sheet.
    Picture(PathBuf),
}

impl Operation {
    /// The operation of a word, with its operands; none for a word that is no operation.
    pub fn parse(word: &str, words: &mut Words) -> Result<Option<Operation>, Problem> {
        let operation = match word {
            "draw" => Operation::Draw(words.count(word, "CELLS")?),
            "read" => Operation::Read(Place::to_read(words)?),
            "open" => Operation::Open(Place::to_open(word, words)?),
            "refine" => Operation::Refine,
            "subdivide" => Operation::Subdivide,
            "rows" => Operation::Rows,
            "regularize" => Operation::Regularize(words.count_or(word, 1)?),
            "improve" => Operation::Improve(words.count_or(word, 1)?),
            "coarsen" => Operation::Coarsen(words.count_or(word, 1)?),
            "check" => Operation::Check,
            "write" => Operation::Write(Place::to_write(words)?),
            "save" => Operation::Save(Place::to_save(words)?),
            "picture" => Operation::Picture(picture(words)?),
            _ => return Ok(None),
        };
        Ok(Some(operation))
    }

    /// Whether it brings a sheet, where none is needed before it.
    pub fn brings_sheet(&self) -> bool {
        matches!(self, Operation::Draw(_) | Operation::Read(_) | Operation::Open(_))
    }

    /// Whether it leaves the sheet as it was.
    pub fn keeps_sheet(&self) -> bool {
        matches!(self, Operation::Check | Operation::Write(_) | Operation::Save(_) | Operation::Picture(_))
    }

    /// Whether it takes standard input.
    pub fn takes_input(&self) -> bool {
        matches!(self, Operation::Read(Place::Standard) | Operation::Open(Place::Standard))
    }

    /// Whether it writes to standard output.
    pub fn fills_output(&self) -> bool {
        matches!(self, Operation::Write(Place::Standard) | Operation::Save(Place::Standard))
    }
}

/// A file for a picture, by its ending.
fn picture(words: &mut Words) -> Result<PathBuf, Problem> {
    let file = Path::new(words.file("picture", "FILE.svg or FILE.png")?);
    match file.extension().and_then(|ending| ending.to_str()) {
        Some("svg" | "png") => Ok(file.into()),
        _ => Err(Problem::Usage(format!("picture needs FILE.svg or FILE.png, not {}", file.display()))),
    }
}
