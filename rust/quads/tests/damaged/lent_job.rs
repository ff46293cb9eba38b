//! What saving and opening a job is lent beside a sheet, between margins.
use crate::call::Operation;
use crate::common::{file_of, place_of};
use crate::guarded::{Guarded, same};
use crate::inputs::Input;
use quads::{Counts, Job, Sheet, sizes};

/// The header and the file of a call that saves, and those of one that opens.
#[derive(Clone)]
pub struct JobLent {
    /// The counts of the sheet that is saved.
    pub counts: Counts,
    /// The header that is saved.
    pub header: Guarded<f64>,
    /// Where the file is saved.
    pub file: Guarded<u8>,
    /// The file that is opened.
    pub saved: Guarded<u8>,
    /// Where its header goes.
    pub new_header: Guarded<f64>,
}

impl JobLent {
    /// The lists of an input, each between margins.
    pub fn of(input: &Input, margin: usize) -> JobLent {
        JobLent {
            counts: input.counts,
            header: Guarded::new(&input.header, margin),
            file: Guarded::new(&input.file, margin),
            saved: Guarded::new(&input.saved, margin),
            new_header: Guarded::new(&input.new_header, margin),
        }
    }

    /// Whether all lists are those of another.
    pub fn same(&self, other: &JobLent) -> bool {
        self.reads_stay(other, Operation::Refine)
    }

    /// Whether all margins are as they were.
    pub fn is_intact(&self) -> bool {
        let floats = [&self.header, &self.new_header].iter().all(|list| list.is_intact());
        floats && [&self.file, &self.saved].iter().all(|list| list.is_intact())
    }

    /// Whether everything that the operation does not write is as it was.
    pub fn reads_stay(&self, before: &JobLent, operation: Operation) -> bool {
        same(self.header.list(), before.header.list())
            && same(self.saved.list(), before.saved.list())
            && (operation == Operation::Save || same(self.file.list(), before.file.list()))
            && (operation == Operation::Open || same(self.new_header.list(), before.new_header.list()))
    }

    /// Whether the header, the slice for the file, or this work is too short for the operation.
    pub fn is_short(&self, operation: Operation, work: usize) -> bool {
        match operation {
            Operation::Save => {
                let needed = sizes::job_bytes(self.counts);
                self.header.list().len() < 8 || self.file.list().len() < needed || work < self.counts.points
            }
            Operation::Open => self.new_header.list().len() < 8 || self.points().is_some_and(|points| work < points),
            _ => false,
        }
    }

    /// How many points the file has that is opened, where its trailer says that they end behind their start.
    fn points(&self) -> Option<usize> {
        let file = Some(self.saved.list()).filter(|file| file.len() >= 84)?;
        let quads = file[place_of(file, 1)..].first_chunk().map(|bytes| u32::from_le_bytes(*bytes))?;
        Some((quads as usize).checked_sub(64)? / 24)
    }
}

/// Points, quads and labels in flat lists.
type Lists<'a> = (&'a Guarded<f64>, &'a Guarded<u32>, &'a Guarded<u8>);

/// The file of a header and a sheet of these counts, as Rust lays it out; none where the lists are too short for them.
pub fn job_file(header: &Guarded<f64>, (points, quads, labels): Lists, counts: Counts) -> Option<Vec<u8>> {
    let &[x, y, z, high_x, high_y, high_z, lower, upper] = header.list().first_chunk()?;
    let sheet = Sheet {
        points: points.list().get(..3 * counts.points)?.as_chunks().0.to_vec(),
        quads: quads.list().get(..4 * counts.quads)?.as_chunks().0.to_vec(),
        labels: labels.list().get(..counts.labels)?.to_vec(),
    };
    Some(file_of(&Job { low: [x, y, z], high: [high_x, high_y, high_z], lower, upper, sheet }))
}
