//! Runs steps, one after the other, on one sheet.
use crate::band::Parts;
use crate::defects::{self, Defects};
use crate::display::{self, Report};
use crate::operation::Operation;
use crate::picture::{self, View};
use crate::place::Place;
use crate::ply;
use crate::problem::Problem;
use crate::replace;
use crate::setting::Setting;
use crate::step::{Action, Step};
use quads::sizes::LARGEST_JOB;
use quads::{Counts, Job, Sheet, Workspace};
use std::fmt::Arguments;
use std::io::Write;
use std::path::Path;
use std::time::Instant;

/// The sheet as it is now, and the options that hold.
pub struct Pipeline<'a> {
    out: &'a mut dyn Write,
    log: &'a mut dyn Write,
    sheet: Sheet,
    workspace: Workspace,
    defects: Defects,
    given: Parts,
    found: Parts,
    label: Option<u8>,
    view: View,
    ascii: bool,
    quiet: bool,
    output_is_sheet: bool,
}

impl<'a> Pipeline<'a> {
    /// Nothing yet; results go to `out`, progress to `log`.
    pub fn new(out: &'a mut dyn Write, log: &'a mut dyn Write) -> Pipeline<'a> {
        Pipeline {
            out,
            log,
            sheet: Sheet::default(),
            workspace: Workspace::new(),
            defects: Defects::default(),
            given: Parts::default(),
            found: Parts::default(),
            label: None,
            view: View::default(),
            ascii: false,
            quiet: false,
            output_is_sheet: false,
        }
    }

    /// Runs all steps, up to the first problem.
    pub fn run(&mut self, steps: &[Step]) -> Result<(), Problem> {
        self.output_is_sheet = steps.iter().any(Step::fills_output);
        steps.iter().try_for_each(|step| self.step(step).map_err(|problem| problem.at(&step.text)))
    }

    /// Runs one step.
    fn step(&mut self, step: &Step) -> Result<(), Problem> {
        match &step.action {
            Action::Set(setting) => {
                self.set(setting);
                Ok(())
            }
            Action::Print(report) => self.print(*report),
            Action::Sum(place) => self.sum(place),
            Action::Run(operation) => {
                self.run_and_tell(operation, &step.text)?;
                self.warn(operation, &step.text);
                Ok(())
            }
        }
    }

    /// Runs an operation. It is told in the log: its words before it starts, what it did and its time after it.
    fn run_and_tell(&mut self, operation: &Operation, text: &str) -> Result<(), Problem> {
        self.tell(format_args!("{text}: "));
        let started = Instant::now();
        let did = self.operate(operation);
        match &did {
            Ok(did) => self.tell(format_args!("{did}, {:.2} s\n", started.elapsed().as_secs_f64())),
            Err(Problem::Closed) => self.tell(format_args!("stopped\n")),
            Err(_) => self.tell(format_args!("failed\n")),
        }
        did.map(|_| ())
    }

    /// Warns of defects that an operation left in the sheet and that were not there before. A sheet that cannot be
    /// measured, since the band is not known or `quality` is refused, warns of nothing.
    fn warn(&mut self, operation: &Operation, text: &str) {
        if self.quiet || operation.keeps_sheet() {
            return;
        }
        let before = if operation.brings_sheet() { Defects::default() } else { self.defects };
        let quality = self.parts().band().and_then(|band| Ok(self.workspace.quality(&self.sheet, &band)?));
        self.defects = quality.map(|quality| Defects::of(&quality)).unwrap_or_default();
        if let Some(more) = self.defects.since(before) {
            self.tell(format_args!("warning: after {text} the sheet has {more}\n"));
        }
    }

    /// Writes to the log, unless the pipeline is quiet. A log that cannot be written is no reason to stop.
    fn tell(&mut self, text: Arguments) {
        if !self.quiet {
            let _ = self.log.write_fmt(text).and_then(|()| self.log.flush());
        }
    }

    /// The parts of the band: those that options gave, and for the others those that stand in files.
    fn parts(&self) -> Parts {
        self.given.or(self.found)
    }

    /// An option takes hold.
    fn set(&mut self, setting: &Setting) {
        match *setting {
            Setting::Band(part) => self.given.take(part),
            Setting::Label(label) => self.label = Some(label),
            Setting::Ascii(ascii) => self.ascii = ascii,
            Setting::View(from) => self.view.from = from,
            Setting::Size(size) => self.view.size = size,
            Setting::Quiet => self.quiet = true,
        }
    }

    /// Prints what is asked of the sheet.
    fn print(&mut self, report: Report) -> Result<(), Problem> {
        let band = self.parts().band()?;
        let text = report.text(&mut self.workspace, &self.sheet, &band)?;
        self.show(&text)
    }

    /// Prints the sum that the trailer of a job file says. The sheet, the box and the levels stay as they are.
    fn sum(&mut self, place: &Place) -> Result<(), Problem> {
        let sum = Job::sum(&place.bytes(LARGEST_JOB)?)?;
        self.show(display::squared_sum(sum).as_bytes())
    }

    /// Prints a text; to the log, where the output is the sheet.
    fn show(&mut self, text: &[u8]) -> Result<(), Problem> {
        let out = if self.output_is_sheet { &mut *self.log } else { &mut *self.out };
        display::send(out, text)
    }

    /// Works on the sheet: what was done.
    fn operate(&mut self, operation: &Operation) -> Result<String, Problem> {
        let (parts, sheet, work) = (self.parts(), &mut self.sheet, &mut self.workspace);
        let mut counted = String::new();
        match operation {
            Operation::Draw(cells) => *sheet = work.extract_candidate(&parts.band()?, *cells)?,
            Operation::Refine => *sheet = work.refine(sheet)?,
            Operation::Subdivide => *sheet = work.subdivide(sheet, &parts.band()?)?,
            Operation::Rows => *sheet = work.boundary_rows(sheet, &parts.band()?)?,
            Operation::Regularize(passes) => counted = count(work.regularize(sheet, &parts.band()?, *passes)?, "swaps"),
            Operation::Improve(passes) => {
                counted = count(work.improve_layout(sheet, &parts.band()?, *passes)?, "swaps");
            }
            Operation::Coarsen(passes) => counted = count(work.coarsen(sheet, &parts.band()?, *passes)?, "merges"),
            Operation::Read(place) => self.read(place)?,
            Operation::Open(place) => counted = self.open(place)?,
            Operation::Check => return self.check(),
            Operation::Write(place) => return self.write(place),
            Operation::Save(place) => return self.save(place),
            Operation::Picture(file) => return self.picture(file),
        }
        Ok(counted + &size_of(&self.sheet))
    }

    /// Reads a sheet. A band that stands in the file takes the place of that of another file.
    fn read(&mut self, place: &Place) -> Result<(), Problem> {
        let wrong = |what: String| Problem::file(place.path(), what);
        let (sheet, comments) = ply::read(&mut *place.open()?, self.label).map_err(wrong)?;
        let band = comments.iter().find_map(|comment| comment.strip_prefix(MARK));
        if let Some(band) = band {
            let words: Vec<String> = band.split_whitespace().map(String::from).collect();
            let parts = Parts::parse(&words).map_err(|_| wrong(format!("its band is wrong:{band}")))?;
            self.found = parts;
        }
        self.sheet = sheet;
        Ok(())
    }

    /// Opens a job. Its box and its levels take the place of another file's band; options that say otherwise are told.
    fn open(&mut self, place: &Place) -> Result<String, Problem> {
        let job = self.workspace.open(&place.bytes(LARGEST_JOB)?)?;
        let parts = Parts::of(&job);
        self.found = parts;
        self.sheet = job.sheet;
        let other = self.given.against(parts).join(" and ");
        Ok(if other.is_empty() { other } else { format!("{other} in place of the file's, ") })
    }

    /// Whether the sheet is valid; that it is not is a problem.
    fn check(&mut self) -> Result<String, Problem> {
        let band = self.parts().band()?;
        let faults = defects::faults(&self.workspace.quality(&self.sheet, &band)?);
        faults.map_or(Ok("valid".into()), |faults| Err(Problem::Invalid(faults)))
    }

    /// Writes the sheet, with its band in a comment.
    fn write(&mut self, place: &Place) -> Result<String, Problem> {
        self.labelled(place.target())?;
        let comment = [&[MARK.to_string()], &self.parts().options()[..]].concat().join(" ");
        self.put_to(place, &ply::write(&self.sheet, self.ascii, &comment))
    }

    /// That the sheet has one label a quad, without which this file cannot hold it; else a problem.
    fn labelled(&self, file: &Path) -> Result<(), Problem> {
        let Counts { quads, labels, .. } = self.sheet.counts();
        if quads == labels {
            return Ok(());
        }
        let what = format!("it takes one label a quad; the sheet has {quads} quads and {labels} labels");
        Err(Problem::file(file, what))
    }

    /// Saves the sheet with the box and the levels.
    fn save(&mut self, place: &Place) -> Result<String, Problem> {
        let job = self.parts().job(std::mem::take(&mut self.sheet))?;
        let file = self.workspace.save(&job)?;
        self.sheet = job.sheet;
        self.put_to(place, &file)
    }

    /// Writes bytes to a place, to a file whole or not at all: how many.
    fn put_to(&mut self, place: &Place, bytes: &[u8]) -> Result<String, Problem> {
        match place {
            Place::Standard => display::send(self.out, bytes)?,
            Place::File(file) => put(file, bytes)?,
        }
        Ok(size(bytes))
    }

    /// Draws a picture, of the kind that the file's ending says.
    fn picture(&self, file: &Path) -> Result<String, Problem> {
        self.labelled(file)?;
        let drawn = if file.extension().is_some_and(|ending| ending == "svg") {
            picture::svg(&self.sheet, &self.view).into_bytes()
        } else {
            picture::png(&self.sheet, &self.view)
        };
        put(file, &drawn)?;
        Ok(size(&drawn))
    }
}

/// What begins the comment of a file that tells the band.
const MARK: &str = "cuckoosilver";

/// A count and its name.
fn count(n: usize, name: &str) -> String {
    format!("{n} {name}, ")
}

/// How many points and quads a sheet has, and how many labels where these are not as many as the quads.
fn size_of(sheet: &Sheet) -> String {
    let Counts { points, quads, labels } = sheet.counts();
    let labels = if labels == quads { String::new() } else { format!(", {labels} labels") };
    format!("{points} points, {quads} quads{labels}")
}

/// How long a file is.
fn size(bytes: &[u8]) -> String {
    format!("{} bytes", bytes.len())
}

/// Writes a file, whole or not at all.
fn put(file: &Path, bytes: &[u8]) -> Result<(), Problem> {
    replace::put(file, bytes).map_err(|error| Problem::written(file, &error))
}
