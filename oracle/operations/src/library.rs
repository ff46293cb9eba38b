//! A call of the library: everything it is lent, and what it answers.
use crate::flat::{Flat, FlatBand, Work};
use crate::jobs;
use oracle::call::{self, Answer, Call};
use oracle::operation::Operation;
use oracle::quads::Quality;
use quads::{Counts, LIMIT, Refusal, ffi, sizes};

/// All that an operation is lent; what it writes is filled with what must be overwritten.
pub struct Lent {
    /// The sheet.
    pub sheet: Flat,
    /// The sheet as it came.
    came: Flat,
    /// Passes or cells.
    pub argument: usize,
    /// The band.
    pub band: FlatBand,
    /// Room for a sheet that is made.
    pub result: Flat,
    /// The work.
    pub work: Work,
    /// The answer slice, one element longer than the longest answer.
    pub answer: Vec<u64>,
    /// The measures slice, one element longer than the measures.
    pub measures: Vec<f64>,
    /// The page slice, as long as a page or longer.
    pub page: Vec<u8>,
}

/// The bytes of a page.
const PAGE: usize = 328;

/// The lengths of page slices, which take turns by the sheet's number of quads.
const PAGES: [usize; 3] = [PAGE, PAGE + 1, 400];

/// How many elements of its answer and measures slices an operation writes.
fn written(operation: Operation) -> (usize, usize) {
    match operation {
        Operation::Quality => (10, 4),
        Operation::Corners => (2, 0),
        Operation::Page => (0, 0),
        _ => (4, 0),
    }
}

/// The elements of a slice that a call writes, so many, and those behind them; of a slice that is too short none is
/// written.
fn parts<T>(slice: &[T], written: usize) -> (&[T], &[T]) {
    slice.split_at_checked(written).unwrap_or((&[], slice))
}

/// Room for the largest sheet that an operation can make, and one element more; none where it makes no sheet.
fn room(operation: Operation, argument: usize, sheet: Counts) -> Counts {
    let most = match operation {
        Operation::Refine | Operation::Subdivide => sizes::finer(sheet),
        Operation::Rows => sizes::with_rows(sheet),
        Operation::Extract => sizes::drawn(argument),
        _ => return Counts::default(),
    };
    Counts { points: most.points + 1, quads: most.quads + 1, labels: most.labels + 1 }
}

impl Lent {
    /// What a call lends, its sheet in slices of its own.
    pub fn of(call: &Call) -> Lent {
        Lent::on(Flat::with_tails(&call.sheet), call)
    }

    /// What a call lends, its sheet in these slices.
    pub fn on(sheet: Flat, call: &Call) -> Lent {
        let argument = call.argument as usize;
        let drawing = call.operation == Operation::Extract;
        let work = if drawing { sizes::draw_work(argument) } else { sizes::sheet_work(sheet.counts) };
        Lent {
            came: sheet.clone(),
            result: Flat::room(room(call.operation, argument, sheet.counts)),
            page: vec![255; PAGES[sheet.counts.quads % PAGES.len()]],
            sheet,
            argument,
            band: FlatBand::from(&call.band),
            work: work.into(),
            answer: vec![u64::MAX; 11],
            measures: vec![f64::NAN; 5],
        }
    }

    /// The same with something changed before the call.
    pub fn changed(mut self, change: impl FnOnce(&mut Lent)) -> Lent {
        change(&mut self);
        self.came = self.sheet.clone();
        self
    }

    /// Calls the operation: 0, or the number of its refusal. None where it is not one of the library's, or is of a job,
    /// which is lent other things.
    pub fn run(&mut self, operation: Operation) -> Option<u32> {
        let (band, number, answer) = (self.band.as_band_ref(), self.argument, &mut self.answer);
        let (sheet, made, work) = (&mut self.sheet, self.result.as_sheet_out(), self.work.as_work_mut());
        match operation {
            Operation::Refine => Some(ffi::refine(sheet.as_sheet_ref(), made, work, answer)),
            Operation::Subdivide => Some(ffi::subdivide(sheet.as_sheet_ref(), band, made, work, answer)),
            Operation::Rows => Some(ffi::boundary_rows(sheet.as_sheet_ref(), band, made, work, answer)),
            Operation::Extract => Some(ffi::extract_candidate(band, number, made, work, answer)),
            Operation::Regularize => Some(ffi::regularize(sheet.as_sheet_mut(), band, number, work, answer)),
            Operation::ImproveLayout => Some(ffi::improve_layout(sheet.as_sheet_mut(), band, number, work, answer)),
            Operation::Coarsen => Some(ffi::coarsen(sheet.as_sheet_mut(), band, number, work, answer)),
            Operation::Quality => Some(ffi::quality(sheet.as_sheet_ref(), band, work, answer, &mut self.measures)),
            Operation::Corners => Some(ffi::corners_per_point(sheet.as_sheet_ref(), band, work, answer)),
            Operation::Page => Some(ffi::page(sheet.as_sheet_ref(), band, work, &mut self.page)),
            Operation::Project | Operation::Value | Operation::Gradient | Operation::Normal => None,
            Operation::Sqrt | Operation::Constraints | Operation::Validate => None,
            Operation::Save | Operation::Open | Operation::Sum => None,
        }
    }

    /// The count, and the counts of the sheet that was made or altered; none in a slice that is too short for them.
    fn answered(&self) -> Option<ffi::Answer> {
        self.answer.first_chunk::<4>().map(|&answer| answer.into())
    }

    /// The sheet that an operation made or altered in all its slices; none if something is left behind it.
    fn sheet_in(&self, slices: &Flat) -> Option<Answer> {
        let ffi::Answer { count, sheet } = self.answered()?;
        Some(Answer::sheet(count, &slices.sheet(sheet)?))
    }

    /// The sheet whose quads an operation altered; none if anything else is not as it came, or something is left behind
    /// the quads.
    fn swapped(&self) -> Option<Answer> {
        let Flat { points, labels, counts, .. } = self.came.clone();
        let mut left = self.sheet.clone();
        (left.points, left.labels) = (points, labels);
        let answer = self.answered()?;
        if !left.same(&self.sheet) || answer.sheet != counts {
            return None;
        }
        left.points.truncate(3 * counts.points);
        left.labels.truncate(counts.labels);
        Some(Answer::sheet(answer.count, &left.sheet(counts)?))
    }

    /// The measures that `quality` wrote: eight counts, tight and valid, and four floats.
    fn measured(&self) -> Option<Answer> {
        let [
            quads,
            irregular_vertices,
            boundary_edges,
            nonmanifold_edges,
            orientation_errors,
            bad_vertex_links,
            duplicate_faces,
            invalid_cells,
            tight,
            valid,
        ] = self.answer.first_chunk::<10>()?.map(|n| n as usize);
        let [minimum_shape, shape_size_p05, shape_size_mean, minimum_sampled_jacobian] =
            *self.measures.first_chunk()?;
        let quality = Quality {
            quads,
            irregular_vertices,
            boundary_edges,
            nonmanifold_edges,
            orientation_errors,
            bad_vertex_links,
            duplicate_faces,
            invalid_cells,
            minimum_shape,
            shape_size_p05,
            shape_size_mean,
            minimum_sampled_jacobian,
        };
        let bits = tight < 2 && valid == usize::from(quality.is_valid());
        bits.then(|| Answer::quality(&quality, tight == 1))
    }

    /// The quotient and the remainder that `corners_per_point` wrote.
    fn divided(&self) -> Option<Answer> {
        self.answer.first_chunk().map(|&words| Answer::ratio(words))
    }

    /// The page that `page` wrote; none if something is left behind it.
    fn shown(&self) -> Option<Answer> {
        let (text, behind) = self.page.split_at_checked(PAGE)?;
        behind.iter().all(|&byte| byte == 0).then(|| Answer::text(text))
    }

    /// Whether all bytes of the page slice are this one.
    fn is_filled(&self, byte: u8) -> bool {
        self.page.iter().all(|&found| found == byte)
    }

    /// Whether a refusal left zeros in everything that would have been made.
    fn is_bare(&self, operation: Operation) -> bool {
        let (answers, measures) = written(operation);
        parts(&self.answer, answers).0.iter().all(|&n| n == 0)
            && parts(&self.measures, measures).0.iter().all(|x| x.to_bits() == 0)
            && self.result.sheet(Counts::default()).is_some()
            && (operation != Operation::Page || self.is_filled(0))
    }

    /// Whether what is behind the answer and the measures, all of a slice that is too short, is as it was filled, and
    /// the page slice of another operation too.
    fn is_kept_behind(&self, operation: Operation) -> bool {
        let (answers, measures) = written(operation);
        parts(&self.answer, answers).1.iter().all(|&n| n == u64::MAX)
            && parts(&self.measures, measures).1.iter().all(|x| x.to_bits() == f64::NAN.to_bits())
            && (operation == Operation::Page || self.is_filled(255))
    }

    /// Whether the lent sheet is as it came, which only an accepted clean-up may change.
    fn is_kept(&self) -> bool {
        self.sheet.same(&self.came)
    }

    /// The answer to a call that ended with this number; none if it left something behind.
    pub fn answer(&self, operation: Operation, number: u32) -> Option<Answer> {
        match (number, operation) {
            _ if !self.work.is_zero() || !self.is_kept_behind(operation) => None,
            (0, Operation::Regularize | Operation::ImproveLayout) => self.swapped(),
            (0, Operation::Coarsen) => self.sheet_in(&self.sheet),
            _ if !self.is_kept() => None,
            (0, Operation::Quality) => self.measured(),
            (0, Operation::Corners) => self.divided(),
            (0, Operation::Page) => self.shown(),
            (0, _) => self.sheet_in(&self.result),
            _ => self.is_bare(operation).then(|| Answer::refused(number as u8)),
        }
    }

    /// The slices of the sheet that a call with this number leaves for the next one.
    pub fn left(self, operation: Operation, number: u8) -> Flat {
        let counts = self.answered().map_or(self.sheet.counts, |answer| answer.sheet);
        match operation {
            _ if number != 0 || operation.measures() => self.sheet,
            Operation::Regularize | Operation::ImproveLayout | Operation::Coarsen => Flat { counts, ..self.sheet },
            _ => Flat { counts, ..self.result },
        }
    }
}

/// What the documents expect: what the original answers, or a model where it is not asked, but no room for a drawn
/// sheet above the limit.
pub fn expected(call: &Call) -> Answer {
    let answer = call::expected(call);
    if call.operation == Operation::Extract && answer.counts.iter().any(|&n| n as usize > LIMIT) {
        return Answer::refused(Refusal::Short.number() as u8);
    }
    answer
}

/// What the library answers, or none where the operation is not one of its own or left something behind.
pub fn answer(call: &Call) -> Option<Answer> {
    if call.operation.is_of_a_job() {
        return jobs::answer(call);
    }
    let mut lent = Lent::of(call);
    let number = lent.run(call.operation)?;
    lent.answer(call.operation, number)
}
