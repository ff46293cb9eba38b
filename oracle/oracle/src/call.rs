//! A call of an operation, and what is expected of it: what the original answers, or a model where it is not asked.
use crate::field::{BandNumbers, Field};
use crate::implicit::ScalarField;
use crate::job::{self, Job, Room};
use crate::operation::Operation;
use crate::quads::{self, Band, QuadMesh, Quality};
use crate::{MeshingError, Point, corners, inner, levels, page, refusal, rings};

/// The result is a digest of the sheet.
pub const DIGEST: u8 = 1;
/// Quality: `is_valid` says yes.
pub const VALID: u8 = 2;
/// Quality: every edge has exactly two quads that run opposite ways, and the original counts no bad link.
pub const TIGHT: u8 = 4;
/// Quality: no score is NaN, so shape_size_p05 is compared.
pub const SCORED: u8 = 8;

/// What an operation is asked.
#[derive(Clone, Debug)]
pub struct Call {
    /// Which one.
    pub operation: Operation,
    /// Passes, cells, mask or label; of `save` the bytes lent for the file, of `open` the points, quads and labels for
    /// which there is room, and the elements of work, where 0 stands for 64.
    pub argument: u64,
    /// The band; `save` takes its box and its levels.
    pub band: BandNumbers,
    /// The lent sheet; operations 9 to 13 take its only point, `open` and `sum` its labels as the bytes of the file.
    pub sheet: QuadMesh,
}

/// What an operation answers: a result is kept as the words of its record.
#[derive(Clone, Debug, Default, PartialEq, Eq)]
pub struct Answer {
    /// 0, or the number of the refusal.
    pub number: u8,
    /// What is said by `DIGEST`, `VALID`, `TIGHT` and `SCORED`.
    pub flags: u8,
    /// How many swaps or merges were made, or how many bytes were saved, or the sum that was read.
    pub count: u64,
    /// Points, quads and labels of the result, or of the sheet that was saved; of `sum`, 1 and zeros if one is written.
    pub counts: [u32; 3],
    /// The result.
    pub words: Vec<u64>,
}

/// The bits of a float in a result; every NaN is the same one.
pub fn result_bits(x: f64) -> u64 {
    if x.is_nan() { 0x7ff8_0000_0000_0000 } else { x.to_bits() }
}

/// A sheet with no quad and this one point.
pub fn lone(p: Point) -> QuadMesh {
    QuadMesh { points: vec![p], quads: vec![], labels: vec![] }
}

/// Bytes as words, eight to a word, the first of them lowest.
fn byte_words(bytes: &[u8]) -> impl Iterator<Item = u64> {
    bytes.chunks(8).map(|eight| eight.iter().rev().fold(0, |word, &byte| word << 8 | u64::from(byte)))
}

/// The words of a sheet: coordinates, corners two to a word, labels eight to a word.
pub fn sheet_words(sheet: &QuadMesh, bits: fn(f64) -> u64) -> Vec<u64> {
    let mut words: Vec<u64> = sheet.points.iter().flatten().map(|&x| bits(x)).collect();
    for [a, b, c, d] in sheet.quads.iter().map(|quad| quad.map(|corner| corner as u64)) {
        words.extend([a | b << 32, c | d << 32]);
    }
    words.extend(byte_words(&sheet.labels));
    words
}

impl Answer {
    /// Accepted, with nothing more to say.
    pub fn accepted() -> Answer {
        Answer::default()
    }

    /// Refused with a number.
    pub fn refused(number: u8) -> Answer {
        Answer { number, ..Answer::default() }
    }

    /// Accepted, with a point as the result.
    pub fn point(p: Point) -> Answer {
        Answer { counts: [1, 0, 0], words: p.map(result_bits).to_vec(), ..Answer::default() }
    }

    /// Accepted, with a number as the result: the x of a point.
    pub fn number(x: f64) -> Answer {
        Answer::point([x, 0.0, 0.0])
    }

    /// Accepted, with a count and a sheet as the result.
    pub fn sheet(count: usize, sheet: &QuadMesh) -> Answer {
        let counts = [sheet.points.len(), sheet.quads.len(), sheet.labels.len()].map(|n| n as u32);
        Answer { count: count as u64, counts, words: sheet_words(sheet, result_bits), ..Answer::default() }
    }

    /// Accepted, with the measures of a sheet as the result.
    pub fn quality(quality: &Quality, tight: bool) -> Answer {
        let counts = [
            quality.quads,
            quality.irregular_vertices,
            quality.boundary_edges,
            quality.nonmanifold_edges,
            quality.orientation_errors,
            quality.bad_vertex_links,
            quality.duplicate_faces,
            quality.invalid_cells,
        ];
        let measures =
            [quality.minimum_shape, quality.shape_size_p05, quality.shape_size_mean, quality.minimum_sampled_jacobian];
        let valid = if quality.is_valid() { VALID } else { 0 };
        let tight = if tight { TIGHT } else { 0 };
        let scored = if quality.shape_size_mean.is_nan() { 0 } else { SCORED };
        let words = counts.iter().map(|&n| n as u64).chain(measures.map(result_bits)).collect();
        Answer { flags: valid | tight | scored, words, ..Answer::default() }
    }

    /// Accepted, with a quotient and a remainder as the result.
    pub fn ratio(words: [u64; 2]) -> Answer {
        Answer { words: words.to_vec(), ..Answer::default() }
    }

    /// Accepted, with text as the result.
    pub fn text(text: &[u8]) -> Answer {
        Answer { words: byte_words(text).collect(), ..Answer::default() }
    }

    /// Accepted, with a file of a sheet of these counts as the result.
    pub fn file(file: &[u8], counts: [usize; 3]) -> Answer {
        let words = byte_words(file).collect();
        Answer { count: file.len() as u64, counts: counts.map(|n| n as u32), words, ..Answer::default() }
    }

    /// Accepted, with a job as the result: its header and its sheet, every bit as it is.
    pub fn job(Job { header, sheet }: &Job) -> Answer {
        let words = header.iter().map(|x| x.to_bits()).chain(sheet_words(sheet, f64::to_bits)).collect();
        Answer { counts: job::counts(sheet).map(|n| n as u32), words, ..Answer::default() }
    }

    /// Accepted, with the sum that a file has, or with none.
    pub fn sum(written: Option<u64>) -> Answer {
        let counts = [u32::from(written.is_some()), 0, 0];
        Answer { count: written.unwrap_or(0), counts, ..Answer::default() }
    }

    /// The answer of a result of the original.
    fn of<T>(result: Result<T, MeshingError>, accepted: impl FnOnce(T) -> Answer) -> Answer {
        result.map_or_else(|error| Answer::refused(refusal::number(&error)), accepted)
    }

    /// Whether another answer to the same operation is the same, by document 01's rule of comparison.
    pub fn same(&self, other: &Answer, operation: Operation) -> bool {
        if operation != Operation::Quality {
            return self == other;
        }
        let heads = |a: &Answer| (a.number, a.flags, a.words.len());
        heads(self) == heads(other)
            && self.words.iter().zip(&other.words).enumerate().all(|(i, (&a, &b))| {
                let zeros = i >= 8 && a << 1 == 0 && b << 1 == 0;
                let unscored = i == 9 && self.flags & SCORED == 0;
                a == b || zeros || unscored
            })
    }
}

/// An operation of the original that alters a sheet in place and counts.
type Clean = fn(&mut QuadMesh, &Band<'_, Field>, usize) -> Result<usize, MeshingError>;

/// What such an operation answers.
fn cleaned(call: &Call, operation: Clean) -> Answer {
    let mut sheet = call.sheet.clone();
    let count = operation(&mut sheet, &call.band.band(), call.argument as usize);
    Answer::of(count, |count| Answer::sheet(count, &sheet))
}

/// Runs the original's own operation on a sheet, which is the call's or a copy of it, and keeps nothing of the answer;
/// where it has no such operation, what stands for it; of `save` and `open`, the oracle's writer and reader alone, with
/// the sum that they work out and compare.
pub fn run(call: &Call, sheet: &mut QuadMesh) {
    let (band, number) = (&call.band.band(), call.argument as usize);
    match call.operation {
        Operation::Refine => drop(quads::refine(sheet)),
        Operation::Subdivide => drop(quads::subdivide(sheet, band)),
        Operation::Extract => drop(quads::extract_candidate(band, number)),
        Operation::Rows => drop(quads::boundary_rows(sheet, band)),
        Operation::Regularize => drop(quads::regularize(sheet, band, number)),
        Operation::ImproveLayout => drop(quads::improve_layout(sheet, band, number)),
        Operation::Coarsen => drop(quads::coarsen(sheet, band, number)),
        Operation::Quality => drop(quads::quality(sheet, band)),
        Operation::Save => drop(job::file_of(&job::header(&call.band), sheet)),
        Operation::Open => drop(job::read(&sheet.labels).map(|job| job::tells_true(&sheet.labels, &job.sheet))),
        _ => drop(original(call)),
    }
}

/// What is expected of a call: what the original answers, which is asked with finite levels only, except for what
/// measures a sheet.
pub fn expected(call: &Call) -> Answer {
    levels::judged(call).unwrap_or_else(|| original(call))
}

/// What the original answers, and where it has no operation, its tests or its `quality` and a model; `project` only on
/// a band that `validate` accepts, `normal` only on labels up to 7.
pub(crate) fn original(call: &Call) -> Answer {
    let band = &call.band.band();
    let sheet = &call.sheet;
    let point = sheet.points.first().copied().unwrap_or_default();
    let made = |result| Answer::of(result, |sheet| Answer::sheet(0, &sheet));
    match call.operation {
        Operation::Refine => made(quads::refine(sheet)),
        Operation::Subdivide => made(quads::subdivide(sheet, band)),
        Operation::Extract => made(quads::extract_candidate(band, call.argument as usize)),
        Operation::Rows => made(quads::boundary_rows(sheet, band)),
        Operation::Regularize => cleaned(call, quads::regularize),
        Operation::ImproveLayout => cleaned(call, quads::improve_layout),
        Operation::Coarsen => cleaned(call, quads::coarsen),
        Operation::Quality => Answer::of(quads::quality(sheet, band), |q| {
            Answer::quality(&q, rings::is_closed(sheet) && q.bad_vertex_links == 0)
        }),
        Operation::Project => Answer::of(inner::project(band, point, call.argument as u8), Answer::point),
        Operation::Value => Answer::number(call.band.field.value(point)),
        Operation::Gradient => Answer::point(inner::gradient(band, point)),
        Operation::Normal => Answer::point(inner::normal(band, point, call.argument as u8)),
        Operation::Sqrt => Answer::number(point[0].sqrt()),
        Operation::Constraints => Answer::of(inner::constraints(sheet, band), |()| Answer::accepted()),
        Operation::Validate => Answer::of(inner::validate(band), |()| Answer::accepted()),
        Operation::Corners => Answer::of(inner::constraints(sheet, band), |()| Answer::ratio(corners::dealt(sheet))),
        Operation::Page => Answer::of(quads::quality(sheet, band), |q| Answer::text(page::text(&q).as_bytes())),
        Operation::Save => job::saved(call),
        Operation::Open => job::opened(&sheet.labels, Room::of(call.argument)),
        Operation::Sum => job::summed(&sheet.labels),
    }
}

#[cfg(test)]
mod tests {
    use super::*;

    #[test]
    fn the_words_of_a_sheet_are_little_endian() {
        let sheet = QuadMesh { points: vec![[1.0, 0.0, 0.0]], quads: vec![[1, 2, 3, 4]], labels: vec![5, 6] };
        assert_eq!(sheet_words(&sheet, f64::to_bits), [1f64.to_bits(), 0, 0, 1 | 2 << 32, 3 | 4 << 32, 5 | 6 << 8]);
    }

    #[test]
    fn the_words_of_a_text_are_its_bytes() {
        let Answer { words, .. } = Answer::text(b"quads   1234567\n");
        let bytes: Vec<u8> = words.iter().flat_map(|word| word.to_le_bytes()).collect();
        assert_eq!(bytes, b"quads   1234567\n");
    }

    #[test]
    fn the_words_of_a_file_are_its_bytes_and_zeros() {
        let Answer { words, count, counts, .. } = Answer::file(&[1, 2, 3, 4, 5, 6, 7, 8, 9], [3, 2, 1]);
        assert_eq!((words, count, counts), (vec![0x0807_0605_0403_0201, 9], 9, [3, 2, 1]));
    }

    #[test]
    fn a_sum_is_a_count_and_whether_it_is_written() {
        let Answer { number, count, counts, words, .. } = Answer::sum(Some(7));
        assert_eq!((number, count, counts, words), (0, 7, [1, 0, 0], vec![]));
        assert_eq!(Answer::sum(None), Answer::accepted());
        assert_ne!(Answer::sum(Some(0)), Answer::sum(None));
    }

    #[test]
    fn the_words_of_a_job_keep_every_nan() {
        let signals = f64::from_bits(0x7ff0_0000_0000_0001);
        let sheet = QuadMesh { points: vec![[signals; 3]], quads: vec![], labels: vec![7] };
        let Answer { words, counts, .. } = Answer::job(&Job { header: [-signals; 8], sheet });
        assert_eq!((counts, words.len()), ([1, 0, 1], 12));
        assert_eq!((words[7], words[8], words[11]), (0xfff0_0000_0000_0001, 0x7ff0_0000_0000_0001, 7));
    }
}
