//! The options of a command line, each of which holds for the steps after it.
use crate::band::Part;
use crate::problem::Problem;
use crate::words::Words;

/// What an option sets.
#[derive(Clone, Debug, PartialEq)]
pub enum Setting {
    /// --plane, --ball, --quadric, --box or --levels.
    Band(Part),
    /// --label: the label of quads that are read without one.
    Label(u8),
    /// --ascii or --binary: how PLY files are written.
    Ascii(bool),
    /// --view: where pictures are seen from.
    View([f64; 3]),
    /// --size: the side of pictures in pixels.
    Size(usize),
    /// --quiet: no progress and no warnings.
    Quiet,
}

impl Setting {
    /// The setting of a word, with its operands; none for a word that is no option.
    pub fn parse(word: &str, words: &mut Words) -> Result<Option<Setting>, Problem> {
        let setting = match word {
            "--label" => Setting::Label(label(words)?),
            "--ascii" => Setting::Ascii(true),
            "--binary" => Setting::Ascii(false),
            "--view" => Setting::View(view(words)?),
            "--size" => Setting::Size(size(words)?),
            "--quiet" => Setting::Quiet,
            _ => return Ok(Part::parse(word, words)?.map(Setting::Band)),
        };
        Ok(Some(setting))
    }
}

/// The largest label.
const LARGEST_LABEL: u8 = 7;

/// A label.
fn label(words: &mut Words) -> Result<u8, Problem> {
    let what = format!("a label, from 0 to {LARGEST_LABEL}");
    let label = words.count("--label", &what)?;
    let label = u8::try_from(label).ok().filter(|label| *label <= LARGEST_LABEL);
    label.ok_or_else(|| Problem::Usage(format!("--label needs {what}")))
}

/// A place to look from. The largest of its numbers is such that their squares are neither 0 nor infinite.
fn view(words: &mut Words) -> Result<[f64; 3], Problem> {
    let from = words.floats("--view")?;
    let largest = from.iter().fold(0.0, |largest: f64, number| largest.max(number.abs()));
    if from.iter().all(|number| number.is_finite()) && (1e-100..=1e100).contains(&largest) {
        return Ok(from);
    }
    Err(Problem::Usage("--view needs 3 finite numbers, the largest from 1e-100 to 1e100; 0 0 0 is no direction".into()))
}

/// The largest side of a picture.
const LARGEST_SIZE: usize = 4096;

/// A side for pictures.
fn size(words: &mut Words) -> Result<usize, Problem> {
    let what = format!("the side of a picture, from 16 to {LARGEST_SIZE}");
    let size = words.count("--size", &what)?;
    if (16..=LARGEST_SIZE).contains(&size) { Ok(size) } else { Err(Problem::Usage(format!("--size needs {what}"))) }
}
