//! One call of the face, between margins, and what it must leave.
use crate::common::without_sum;
use crate::guarded::{Bits, Guarded, is_zero, same};
use crate::inputs::Input;
use crate::lent_job::{JobLent, job_file};
use quads::ffi::{self, Answer, BandRef, SheetMut, SheetOut, SheetRef, WorkMut};
use quads::{Counts, PAGE, Refusal};

/// The operations.
#[derive(Clone, Copy, Debug, PartialEq, Eq, PartialOrd, Ord)]
pub enum Operation {
    Extract,
    Refine,
    Subdivide,
    Rows,
    Regularize,
    ImproveLayout,
    Coarsen,
    Quality,
    Corners,
    Page,
    Save,
    Open,
    Sum,
}

/// All of them.
pub const OPERATIONS: [Operation; 13] = [
    Operation::Extract,
    Operation::Refine,
    Operation::Subdivide,
    Operation::Rows,
    Operation::Regularize,
    Operation::ImproveLayout,
    Operation::Coarsen,
    Operation::Quality,
    Operation::Corners,
    Operation::Page,
    Operation::Save,
    Operation::Open,
    Operation::Sum,
];

impl Operation {
    /// Whether it makes a new sheet.
    pub fn makes(self) -> bool {
        let makes_of_a_sheet = matches!(self, Operation::Refine | Operation::Subdivide | Operation::Rows);
        makes_of_a_sheet || matches!(self, Operation::Extract | Operation::Open)
    }

    /// Whether it alters the lent quads.
    fn alters(self) -> bool {
        matches!(self, Operation::Regularize | Operation::ImproveLayout | Operation::Coarsen)
    }

    /// Whether it measures or saves the lent sheet, or reads a sum, and neither makes nor alters a sheet.
    fn only_reads(self) -> bool {
        matches!(self, Operation::Quality | Operation::Corners | Operation::Page | Operation::Save | Operation::Sum)
    }

    /// Whether it saves or opens a job, or reads the sum of one, and takes neither a band nor floats of work.
    pub fn is_of_a_job(self) -> bool {
        matches!(self, Operation::Save | Operation::Open | Operation::Sum)
    }

    /// Whether it reads a job file.
    pub fn reads_file(self) -> bool {
        matches!(self, Operation::Open | Operation::Sum)
    }

    /// Whether it takes a band.
    pub fn takes_band(self) -> bool {
        self != Operation::Refine && !self.is_of_a_job()
    }

    /// How many elements of the answer it writes.
    fn answers(self) -> usize {
        match self {
            Operation::Quality => 10,
            Operation::Corners | Operation::Sum => 2,
            Operation::Page => 0,
            _ => 4,
        }
    }
}

/// Whether a number is that of a refusal which the library returns: 2 is no longer one.
fn is_returned(number: u32) -> bool {
    Refusal::try_from(number).is_ok_and(|refusal| refusal != Refusal::Bottomless)
}

/// What a call is lent, between margins.
#[derive(Clone)]
pub struct Lent {
    points: Guarded<f64>,
    quads: Guarded<u32>,
    labels: Guarded<u8>,
    numbers: Guarded<f64>,
    bounds: Guarded<f64>,
    new_points: Guarded<f64>,
    new_quads: Guarded<u32>,
    new_labels: Guarded<u8>,
    pub work: Guarded<u32>,
    floats: Guarded<f64>,
    pub answer: Guarded<u64>,
    pub measures: Guarded<f64>,
    pub page: Guarded<u8>,
    pub job: JobLent,
}

impl Lent {
    /// The lists of an input, each between margins.
    pub fn of(input: &Input, margin: usize) -> Lent {
        Lent {
            points: Guarded::new(&input.points, margin),
            quads: Guarded::new(&input.quads, margin),
            labels: Guarded::new(&input.labels, margin),
            numbers: Guarded::new(&input.numbers, margin),
            bounds: Guarded::new(&input.bounds, margin),
            new_points: Guarded::new(&input.new_points, margin),
            new_quads: Guarded::new(&input.new_quads, margin),
            new_labels: Guarded::new(&input.new_labels, margin),
            work: Guarded::new(&input.work, margin),
            floats: Guarded::new(&input.floats, margin),
            answer: Guarded::new(&input.answer, margin),
            measures: Guarded::new(&input.measures, margin),
            page: Guarded::new(&input.page, margin),
            job: JobLent::of(input, margin),
        }
    }

    /// Calls an operation: its number.
    pub fn call(&mut self, operation: Operation, input: &Input) -> u32 {
        let Input { counts, kind, levels: [lower, upper], argument, .. } = *input;
        let band = BandRef { kind, numbers: self.numbers.list(), bounds: self.bounds.list(), lower, upper };
        let work = WorkMut { wholes: self.work.list_mut(), floats: self.floats.list_mut() };
        let (points, quads) = (self.new_points.list_mut(), self.new_quads.list_mut());
        let made = SheetOut { points, quads, labels: self.new_labels.list_mut() };
        let answer = self.answer.list_mut();
        let (points, quads, labels) = (self.points.list_mut(), self.quads.list_mut(), self.labels.list_mut());
        let read = SheetRef { points, quads, labels, counts };
        match operation {
            Operation::Extract => ffi::extract_candidate(band, argument, made, work, answer),
            Operation::Refine => ffi::refine(read, made, work, answer),
            Operation::Subdivide => ffi::subdivide(read, band, made, work, answer),
            Operation::Rows => ffi::boundary_rows(read, band, made, work, answer),
            Operation::Quality => ffi::quality(read, band, work, answer, self.measures.list_mut()),
            Operation::Corners => ffi::corners_per_point(read, band, work, answer),
            Operation::Page => ffi::page(read, band, work, self.page.list_mut()),
            Operation::Save => {
                ffi::save_job(self.job.header.list(), read, work.wholes, self.job.file.list_mut(), answer)
            }
            Operation::Open => {
                ffi::open_job(self.job.saved.list(), self.job.new_header.list_mut(), made, work.wholes, answer)
            }
            Operation::Sum => ffi::job_sum(self.job.saved.list(), answer),
            Operation::Regularize => {
                ffi::regularize(SheetMut { points, quads, labels, counts }, band, argument, work, answer)
            }
            Operation::ImproveLayout => {
                ffi::improve_layout(SheetMut { points, quads, labels, counts }, band, argument, work, answer)
            }
            Operation::Coarsen => {
                ffi::coarsen(SheetMut { points, quads, labels, counts }, band, argument, work, answer)
            }
        }
    }

    /// Whether all lists are those of another.
    pub fn same(&self, other: &Lent) -> bool {
        same(self.points.list(), other.points.list())
            && same(self.quads.list(), other.quads.list())
            && same(self.labels.list(), other.labels.list())
            && same(self.new_points.list(), other.new_points.list())
            && same(self.new_quads.list(), other.new_quads.list())
            && same(self.new_labels.list(), other.new_labels.list())
            && same(self.answer.list(), other.answer.list())
            && same(self.measures.list(), other.measures.list())
            && same(self.page.list(), other.page.list())
            && self.job.same(&other.job)
    }

    /// What a call that ended with this number broke of its promise.
    pub fn broken(&self, before: &Lent, operation: Operation, number: u32) -> Vec<&'static str> {
        let accepted = number == 0;
        let checks = [
            (accepted || is_returned(number), "the number is none of the table, or 2"),
            (self.is_intact(), "something is written outside of the slices"),
            (self.reads_stay(before, operation, accepted), "something that is only read is changed"),
            (self.work_fits(before, operation), "the work slices are not zero, or not as they came"),
            (self.answers_fit(before, operation, accepted), "the answer is not as promised"),
            (operation != Operation::Page || self.page_fits(accepted), "the page is not as promised"),
            (operation != Operation::Save || self.save_fits(accepted), "the file is not as promised"),
            (operation != Operation::Open || self.open_fits(accepted), "the job is not as promised"),
            (operation != Operation::Sum || !accepted || self.sum_fits(), "the sum is not as promised"),
            (!accepted || operation.only_reads() || self.sheet_fits(operation), "the sheet has something behind it"),
            (accepted || !operation.makes() || self.made_is_zero(), "a refusal leaves something"),
            (self.short_is_told(operation, number), "a slice that is too short is not refused in its place"),
        ];
        checks.into_iter().filter(|&(kept, _)| !kept).map(|(_, what)| what).collect()
    }

    /// Whether all margins are as they were.
    fn is_intact(&self) -> bool {
        let floats = [&self.points, &self.numbers, &self.bounds, &self.new_points, &self.floats, &self.measures];
        floats.iter().all(|list| list.is_intact())
            && [&self.quads, &self.new_quads, &self.work].iter().all(|list| list.is_intact())
            && [&self.labels, &self.new_labels, &self.page].iter().all(|list| list.is_intact())
            && self.answer.is_intact()
            && self.job.is_intact()
    }

    /// Whether the work slices that an operation takes are zero; those that it does not take are as they came.
    fn work_fits(&self, before: &Lent, operation: Operation) -> bool {
        let (wholes, floats) = (operation != Operation::Sum, !operation.is_of_a_job());
        let kept = (wholes || same(self.work.list(), before.work.list()))
            && (floats || same(self.floats.list(), before.floats.list()));
        kept && (!wholes || is_zero(self.work.list())) && (!floats || is_zero(self.floats.list()))
    }

    /// Whether everything that the operation does not write, or was refused to, is as it was.
    fn reads_stay(&self, before: &Lent, operation: Operation, accepted: bool) -> bool {
        fn stays<T: Bits>(now: &Guarded<T>, then: &Guarded<T>) -> bool {
            same(now.list(), then.list())
        }
        let merged = accepted && operation == Operation::Coarsen;
        let swapped = accepted && operation.alters();
        stays(&self.numbers, &before.numbers)
            && stays(&self.bounds, &before.bounds)
            && (merged || stays(&self.points, &before.points))
            && (merged || stays(&self.labels, &before.labels))
            && (swapped || stays(&self.quads, &before.quads))
            && (operation.makes() || stays(&self.new_points, &before.new_points))
            && (operation.makes() || stays(&self.new_quads, &before.new_quads))
            && (operation.makes() || stays(&self.new_labels, &before.new_labels))
            && (operation == Operation::Quality || stays(&self.measures, &before.measures))
            && (operation == Operation::Page || stays(&self.page, &before.page))
            && self.job.reads_stay(&before.job, operation)
    }

    /// Whether a short list is refused in its place: a band's with nothing before it but 12, an answer's, a page, a
    /// header, a file and the work of a job so too, but where a sheet is drawn also behind 1 and 3, where a job file is
    /// read behind 14.
    fn short_is_told(&self, operation: Operation, number: u32) -> bool {
        let draws = operation == Operation::Extract;
        let band = operation.takes_band() && (self.numbers.list().len() < 10 || self.bounds.list().len() < 6);
        let measures = operation == Operation::Quality && self.measures.list().len() < 4;
        let page = operation == Operation::Page && self.page.list().len() < PAGE;
        let job = self.job.is_short(operation, self.work.list().len());
        let mute = self.answer.list().len() < operation.answers() || measures || page || job;
        match (band, mute) {
            (true, _) if draws => number == 13,
            (_, true) if draws => matches!(number, 1 | 3 | 13),
            (_, true) if operation == Operation::Sum => matches!(number, 13 | 14),
            (_, true) if operation.reads_file() => matches!(number, 12..=14),
            (true, _) | (_, true) => matches!(number, 12 | 13),
            (false, false) => true,
        }
    }

    /// Whether the answer and the measures are written, zero after a refusal, and untouched behind and where they are
    /// too short.
    fn answers_fit(&self, before: &Lent, operation: Operation, accepted: bool) -> bool {
        fn fits<T: Bits>(now: &[T], then: &[T], n: usize, accepted: bool) -> bool {
            let n = if now.len() < n { 0 } else { n };
            same(&now[n..], &then[n..]) && (accepted || is_zero(&now[..n]))
        }
        let measures = if operation == Operation::Quality { 4 } else { 0 };
        fits(self.answer.list(), before.answer.list(), operation.answers(), accepted)
            && fits(self.measures.list(), before.measures.list(), measures, accepted)
    }

    /// Whether the page is eight lines of text with zeros behind it, and after a refusal all zero, however short it is.
    fn page_fits(&self, accepted: bool) -> bool {
        fn is_line(line: &[u8]) -> bool {
            line.strip_suffix(b"\n").is_some_and(|text| text.iter().all(|byte| (32..127).contains(byte)))
        }
        let page = self.page.list();
        match page.split_at_checked(PAGE) {
            Some((lines, behind)) if accepted => lines.chunks(PAGE / 8).all(is_line) && is_zero(behind),
            _ => !accepted && is_zero(page),
        }
    }

    /// Whether the file of the lent job is in front of its slice with zeros behind it, and the answer tells it; after a
    /// refusal, whether all of the slice is zero.
    fn save_fits(&self, accepted: bool) -> bool {
        if !accepted {
            return is_zero(self.job.file.list());
        }
        let counts = self.job.counts;
        let file = job_file(&self.job.header, (&self.points, &self.quads, &self.labels), counts).unwrap_or_default();
        let Some((saved, behind)) = self.job.file.list().split_at_checked(file.len()) else { return false };
        saved == file && is_zero(behind) && self.told() == Some(Answer { count: file.len(), sheet: counts })
    }

    /// Whether what was opened is, laid out again, the file that was lent, or that without the sum, with zeros behind
    /// the header; after a refusal, whether all of the header is zero.
    fn open_fits(&self, accepted: bool) -> bool {
        let (header, saved) = (&self.job.new_header, self.job.saved.list());
        let Some(Answer { count: 0, sheet }) = self.told().filter(|_| accepted) else {
            return !accepted && is_zero(header.list());
        };
        let lists = (&self.new_points, &self.new_quads, &self.new_labels);
        let Some(file) = job_file(header, lists, sheet) else { return false };
        (file == saved || without_sum(&file) == saved) && is_zero(&header.list()[8..])
    }

    /// Whether the answer tells the sum that stands in the trailer, or that there is none.
    fn sum_fits(&self) -> bool {
        let expected = match self.job.saved.list() {
            [front @ .., 28, 0, 0, 0] => [1, front.last_chunk().map_or(0, |bytes| u64::from_le_bytes(*bytes))],
            _ => [0, 0],
        };
        self.answer.list().starts_with(&expected)
    }

    /// What the answer slice tells; none of one that is too short.
    fn told(&self) -> Option<Answer> {
        self.answer.list().first_chunk().map(|&answer: &[u64; 4]| answer.into())
    }

    /// Whether the sheet that was made or altered fits into its slices, with zeros behind it.
    fn sheet_fits(&self, operation: Operation) -> bool {
        fn ends<T: Bits>(list: &[T], length: usize) -> bool {
            list.get(length..).is_some_and(is_zero)
        }
        let Some(Answer { sheet: Counts { points, quads, labels }, .. }) = self.told() else { return false };
        let fits = |in_points: &[f64], in_quads: &[u32], in_labels: &[u8]| {
            ends(in_points, 3 * points) && ends(in_quads, 4 * quads) && ends(in_labels, labels)
        };
        match operation {
            Operation::Regularize | Operation::ImproveLayout => ends(self.quads.list(), 4 * quads),
            Operation::Coarsen => fits(self.points.list(), self.quads.list(), self.labels.list()),
            _ => fits(self.new_points.list(), self.new_quads.list(), self.new_labels.list()),
        }
    }

    /// Whether the slices for a new sheet are all zero.
    fn made_is_zero(&self) -> bool {
        is_zero(self.new_points.list()) && is_zero(self.new_quads.list()) && is_zero(self.new_labels.list())
    }
}
