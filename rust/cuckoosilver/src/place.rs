//! Where a sheet is read or opened from, and written or saved to.
use crate::problem::Problem;
use crate::words::Words;
use std::ffi::OsStr;
use std::fs::File;
use std::io::{self, BufRead, BufReader, Read};
use std::path::{Path, PathBuf};

/// A file, or standard input or output.
#[derive(Clone, Debug, PartialEq)]
pub enum Place {
    /// `-`: standard input to a step that reads, standard output to one that writes.
    Standard,
    /// A file.
    File(PathBuf),
}

impl Place {
    /// The place that `read` names: anything but a job file by its ending.
    pub fn to_read(words: &mut Words) -> Result<Place, Problem> {
        let name = words.file("read", "FILE.ply or -")?;
        if has_ending(name, JOB) {
            return Err(other("read", PLY, name));
        }
        Ok(Place::from(name))
    }

    /// The place that `open` or `sum` names: anything but a PLY file by its ending.
    pub fn to_open(step: &str, words: &mut Words) -> Result<Place, Problem> {
        let name = words.file(step, "FILE.job or -")?;
        if has_ending(name, PLY) {
            return Err(other(step, JOB, name));
        }
        Ok(Place::from(name))
    }

    /// The place that `write` names: a PLY file by its ending, a device, or `-`.
    pub fn to_write(words: &mut Words) -> Result<Place, Problem> {
        let name = words.file("write", "FILE.ply or -")?;
        let place = Place::with_ending(name, PLY);
        place.ok_or_else(|| other("write", PLY, name))
    }

    /// The place that `save` names: a job file by its ending, a device, or `-`.
    pub fn to_save(words: &mut Words) -> Result<Place, Problem> {
        let name = words.file("save", "FILE.job or -")?;
        let place = Place::with_ending(name, JOB);
        place.ok_or_else(|| other("save", JOB, name))
    }

    /// The place of a name that has this ending, or is a device, or `-`.
    fn with_ending(name: &str, ending: &str) -> Option<Place> {
        let fits = name == "-" || has_ending(name, ending) || name.starts_with("/dev/");
        fits.then(|| Place::from(name))
    }

    /// What stands there, from its beginning.
    pub fn open(&self) -> Result<Box<dyn BufRead>, Problem> {
        match self {
            Place::Standard => Ok(Box::new(io::stdin().lock())),
            Place::File(path) => match File::open(path) {
                Ok(file) => Ok(Box::new(BufReader::new(file))),
                Err(error) => Err(Problem::file(path, error)),
            },
        }
    }

    /// All bytes that stand there; more than this are a problem.
    pub fn bytes(&self, most: usize) -> Result<Vec<u8>, Problem> {
        let mut bytes = vec![];
        let read = self.open()?.take(most as u64 + 1).read_to_end(&mut bytes);
        read.map_err(|error| Problem::file(self.path(), error))?;
        if bytes.len() > most {
            return Err(Problem::file(self.path(), format!("it has more than {most} bytes, the most of a job file")));
        }
        Ok(bytes)
    }

    /// The path by which a problem in writing is told.
    pub fn target(&self) -> &Path {
        match self {
            Place::Standard => Path::new("standard output"),
            Place::File(path) => path,
        }
    }

    /// The path by which a problem in reading is told.
    pub fn path(&self) -> &Path {
        match self {
            Place::Standard => Path::new("standard input"),
            Place::File(path) => path,
        }
    }
}

impl From<&str> for Place {
    fn from(name: &str) -> Place {
        if name == "-" { Place::Standard } else { Place::File(name.into()) }
    }
}

/// The ending of PLY files.
const PLY: &str = "ply";

/// The ending of job files.
const JOB: &str = "job";

/// The problem of a step that needs a file of this ending and is given another.
fn other(step: &str, ending: &str, name: &str) -> Problem {
    let hint = if has_ending(name, JOB) {
        "job files are opened by `open` and saved by `save`"
    } else if has_ending(name, PLY) {
        "PLY files are read by `read` and written by `write`"
    } else {
        "it knows a file by its ending"
    };
    Problem::Usage(format!("{step} needs FILE.{ending} or -, not {name}; {hint}"))
}

/// Whether the name of a file has this ending.
fn has_ending(name: &str, ending: &str) -> bool {
    Path::new(name).extension().and_then(OsStr::to_str).is_some_and(|found| found.eq_ignore_ascii_case(ending))
}

#[cfg(test)]
mod tests {
    use super::*;

    fn to_write(name: &str) -> Result<Place, Problem> {
        Place::to_write(&mut Words::new(&[name.to_string()]))
    }

    fn to_save(name: &str) -> Result<Place, Problem> {
        Place::to_save(&mut Words::new(&[name.to_string()]))
    }

    #[test]
    fn a_sheet_is_written_as_ply_alone() {
        assert_eq!(to_write("-"), Ok(Place::Standard));
        for right in ["a.ply", "there/b.PLY", "/dev/stdout"] {
            assert_eq!(to_write(right), Ok(Place::File(right.into())));
        }
        for wrong in ["a.obj", "a.stl", "display", "--quiet", ".ply", "a.ply.gz", "a.job"] {
            assert!(matches!(to_write(wrong), Err(Problem::Usage(_))), "{wrong}");
        }
    }

    #[test]
    fn a_job_is_saved_as_a_job_file_alone() {
        assert_eq!(to_save("-"), Ok(Place::Standard));
        for right in ["a.job", "there/b.JOB", "/dev/stdout"] {
            assert_eq!(to_save(right), Ok(Place::File(right.into())));
        }
        for wrong in ["a.ply", "a", "display", "--quiet", ".job", "a.job.gz"] {
            assert!(matches!(to_save(wrong), Err(Problem::Usage(_))), "{wrong}");
        }
    }

    #[test]
    fn the_other_format_is_told() {
        let [ply, job] = ["a.ply", "a.job"].map(|name| [name.to_string()]);
        let told = |found: Result<Place, Problem>, hint: &str| found.unwrap_err().to_string().contains(hint);
        assert!(told(Place::to_read(&mut Words::new(&job)), "; job files are opened by `open` and saved by `save`\n"));
        for step in ["open", "sum"] {
            let opened = Place::to_open(step, &mut Words::new(&ply));
            assert!(told(opened, "; PLY files are read by `read` and written by `write`\n"));
            assert!(Place::to_open(step, &mut Words::new(&job)).is_ok());
        }
        assert!(told(to_save("a.obj"), "not a.obj; it knows a file by its ending\n"));
        assert!(Place::to_read(&mut Words::new(&ply)).is_ok());
    }
}
