//! What is printed.
use crate::problem::Problem;
use quads::{Band, Quality, Ratio, Refused, Sheet, Workspace};
use std::fmt::Display;
use std::io::Write;
use std::path::Path;

/// What a step prints of a sheet.
#[derive(Clone, Copy, Debug, PartialEq)]
pub enum Report {
    /// The two-line display.
    Display,
    /// The page of counts.
    Page,
    /// The whole record.
    Quality,
    /// The corners per point.
    Corners,
}

impl Report {
    /// The report of a word; none for a word that prints nothing.
    pub fn parse(word: &str) -> Option<Report> {
        match word {
            "display" => Some(Report::Display),
            "page" => Some(Report::Page),
            "quality" => Some(Report::Quality),
            "corners" => Some(Report::Corners),
            _ => None,
        }
    }

    /// Its text for a sheet, as bytes, or why what it asks of the sheet is refused.
    pub fn text(self, work: &mut Workspace, sheet: &Sheet, band: &Band) -> Result<Vec<u8>, Refused> {
        match self {
            Report::Display => work.quality(sheet, band).map(|quality| two_lines(&quality).into_bytes()),
            Report::Page => work.page(sheet, band).map(Vec::from),
            Report::Quality => record(work, sheet, band),
            Report::Corners => work.corners_per_point(sheet, band).map(|ratio| corners(ratio).into_bytes()),
        }
    }
}

/// Prints a text.
pub fn print(out: &mut dyn Write, text: &str) -> Result<(), Problem> {
    send(out, text.as_bytes())
}

/// Writes bytes to standard output.
pub fn send(out: &mut dyn Write, bytes: &[u8]) -> Result<(), Problem> {
    out.write_all(bytes)
        .and_then(|()| out.flush())
        .map_err(|error| Problem::written(Path::new("standard output"), &error))
}

/// The two-line display, 20 columns wide: the quads, and the points whose quads are not one ring.
fn two_lines(quality: &Quality) -> String {
    format!("{:<12}{:>8}\n{:<12}{:>8}\n", "quads", quality.quads, "bad points", quality.bad_vertex_links)
}

/// A line that is laid out like those of the page: name left in 24 columns, value right in 16.
fn line(name: &str, value: impl Display) -> String {
    format!("{name:<24}{value:>16}\n")
}

/// The whole record: the page, and behind it the measures.
fn record(work: &mut Workspace, sheet: &Sheet, band: &Band) -> Result<Vec<u8>, Refused> {
    let page = work.page(sheet, band)?;
    let measures = measures(&work.quality(sheet, band)?);
    Ok([&page[..], measures.as_bytes()].concat())
}

/// The measures of the record, and whether it is tight and valid.
fn measures(quality: &Quality) -> String {
    let measure = |name: &str, value: f64| line(name, format!("{value:.6}"));
    let answer = |name: &str, value: bool| line(name, if value { "yes" } else { "no" });
    measure("minimum shape", quality.minimum_shape)
        + &measure("shape and size, 5%", quality.shape_size_p05)
        + &measure("shape and size, mean", quality.shape_size_mean)
        + &measure("minimum Jacobian", quality.minimum_sampled_jacobian)
        + &answer("tight", quality.tight)
        + &answer("valid", quality.is_valid())
}

/// The sum of a job file, or that it has none, laid out like the page.
pub fn squared_sum(sum: Option<u64>) -> String {
    line("squared sum", sum.map_or("none".into(), |sum| sum.to_string()))
}

/// The corners per point with their remainder, laid out like the page.
fn corners(Ratio { quotient, remainder }: Ratio) -> String {
    line("corners per point", quotient) + &line("remainder", remainder)
}
