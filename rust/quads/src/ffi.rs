//! The exports of the library, with slices in place of pointers and lengths. `include/quads.h` says what each one does.
//!
//! Every function here may be called with any slices, counts and numbers: the library is proved to test them, to read
//! and write only what it is lent, and to end. Each returns 0, or the number of a refusal. To save and to open a job,
//! floats pass as their 64 bits.
use crate::sheet::Counts;

/// A sheet that is read: three lists and its counts.
#[derive(Clone, Copy)]
pub struct SheetRef<'a> {
    /// Three coordinates a point.
    pub points: &'a [f64],
    /// Four point numbers a quad.
    pub quads: &'a [u32],
    /// One label a quad.
    pub labels: &'a [u8],
    /// The points, quads and labels.
    pub counts: Counts,
}

/// A sheet that is altered in its own lists.
pub struct SheetMut<'a> {
    /// Three coordinates a point.
    pub points: &'a mut [f64],
    /// Four point numbers a quad.
    pub quads: &'a mut [u32],
    /// One label a quad.
    pub labels: &'a mut [u8],
    /// The points, quads and labels.
    pub counts: Counts,
}

/// Room for a sheet that is made.
pub struct SheetOut<'a> {
    /// Three coordinates a point.
    pub points: &'a mut [f64],
    /// Four point numbers a quad.
    pub quads: &'a mut [u32],
    /// One label a quad.
    pub labels: &'a mut [u8],
}

/// A band: the kind of its field with ten numbers, the six bounds of its box, and two levels.
#[derive(Clone, Copy)]
pub struct BandRef<'a> {
    /// 0 plane, 1 ball, 2 quadric.
    pub kind: u32,
    /// Ten numbers; a plane and a ball use the first four.
    pub numbers: &'a [f64],
    /// Low x, y, z and high x, y, z.
    pub bounds: &'a [f64],
    /// The lower level.
    pub lower: f64,
    /// The upper level.
    pub upper: f64,
}

/// The two work slices.
pub struct WorkMut<'a> {
    /// Whole numbers.
    pub wholes: &'a mut [u32],
    /// Floats.
    pub floats: &'a mut [f64],
}

/// What an operation that makes, alters or saves a sheet answers.
#[derive(Clone, Copy, Debug, PartialEq, Eq)]
pub struct Answer {
    /// The swaps or merges, or the bytes of a saved file; 0 where the operation counts none.
    pub count: usize,
    /// The sheet that was made, altered or saved.
    pub sheet: Counts,
}

/// The answer in the first four elements of an answer slice.
impl From<[u64; 4]> for Answer {
    fn from(elements: [u64; 4]) -> Answer {
        let [count, points, quads, labels] = elements.map(|n| n as usize);
        Answer { count, sheet: Counts { points, quads, labels } }
    }
}

// The declarations of include/quads.h.
unsafe extern "C" {
    fn quads_extract_candidate(
        kind: u32, numbers: *const f64, numbers_len: usize, bounds: *const f64, bounds_len: usize, lower: f64,
        upper: f64, cells: usize, new_points: *mut f64, new_points_len: usize, new_quads: *mut u32,
        new_quads_len: usize, new_labels: *mut u8, new_labels_len: usize, work: *mut u32, work_len: usize,
        floats: *mut f64, floats_len: usize, answer: *mut u64, answer_len: usize,
    ) -> u32;
    fn quads_refine(
        points: *const f64, points_len: usize, quads: *const u32, quads_len: usize, labels: *const u8,
        labels_len: usize, np: usize, nq: usize, nl: usize, new_points: *mut f64, new_points_len: usize,
        new_quads: *mut u32, new_quads_len: usize, new_labels: *mut u8, new_labels_len: usize, work: *mut u32,
        work_len: usize, floats: *mut f64, floats_len: usize, answer: *mut u64, answer_len: usize,
    ) -> u32;
    fn quads_subdivide(
        points: *const f64, points_len: usize, quads: *const u32, quads_len: usize, labels: *const u8,
        labels_len: usize, np: usize, nq: usize, nl: usize, kind: u32, numbers: *const f64, numbers_len: usize,
        bounds: *const f64, bounds_len: usize, lower: f64, upper: f64, new_points: *mut f64, new_points_len: usize,
        new_quads: *mut u32, new_quads_len: usize, new_labels: *mut u8, new_labels_len: usize, work: *mut u32,
        work_len: usize, floats: *mut f64, floats_len: usize, answer: *mut u64, answer_len: usize,
    ) -> u32;
    fn quads_boundary_rows(
        points: *const f64, points_len: usize, quads: *const u32, quads_len: usize, labels: *const u8,
        labels_len: usize, np: usize, nq: usize, nl: usize, kind: u32, numbers: *const f64, numbers_len: usize,
        bounds: *const f64, bounds_len: usize, lower: f64, upper: f64, new_points: *mut f64, new_points_len: usize,
        new_quads: *mut u32, new_quads_len: usize, new_labels: *mut u8, new_labels_len: usize, work: *mut u32,
        work_len: usize, floats: *mut f64, floats_len: usize, answer: *mut u64, answer_len: usize,
    ) -> u32;
    fn quads_regularize(
        points: *const f64, points_len: usize, quads: *mut u32, quads_len: usize, labels: *const u8, labels_len: usize,
        np: usize, nq: usize, nl: usize, kind: u32, numbers: *const f64, numbers_len: usize, bounds: *const f64,
        bounds_len: usize, lower: f64, upper: f64, passes: usize, work: *mut u32, work_len: usize, floats: *mut f64,
        floats_len: usize, answer: *mut u64, answer_len: usize,
    ) -> u32;
    fn quads_improve_layout(
        points: *const f64, points_len: usize, quads: *mut u32, quads_len: usize, labels: *const u8, labels_len: usize,
        np: usize, nq: usize, nl: usize, kind: u32, numbers: *const f64, numbers_len: usize, bounds: *const f64,
        bounds_len: usize, lower: f64, upper: f64, passes: usize, work: *mut u32, work_len: usize, floats: *mut f64,
        floats_len: usize, answer: *mut u64, answer_len: usize,
    ) -> u32;
    fn quads_coarsen(
        points: *mut f64, points_len: usize, quads: *mut u32, quads_len: usize, labels: *mut u8, labels_len: usize,
        np: usize, nq: usize, nl: usize, kind: u32, numbers: *const f64, numbers_len: usize, bounds: *const f64,
        bounds_len: usize, lower: f64, upper: f64, passes: usize, work: *mut u32, work_len: usize, floats: *mut f64,
        floats_len: usize, answer: *mut u64, answer_len: usize,
    ) -> u32;
    fn quads_quality(
        points: *const f64, points_len: usize, quads: *const u32, quads_len: usize, labels: *const u8,
        labels_len: usize, np: usize, nq: usize, nl: usize, kind: u32, numbers: *const f64, numbers_len: usize,
        bounds: *const f64, bounds_len: usize, lower: f64, upper: f64, work: *mut u32, work_len: usize,
        floats: *mut f64, floats_len: usize, answer: *mut u64, answer_len: usize, measures: *mut f64,
        measures_len: usize,
    ) -> u32;
    fn quads_corners_per_point(
        points: *const f64, points_len: usize, quads: *const u32, quads_len: usize, labels: *const u8,
        labels_len: usize, np: usize, nq: usize, nl: usize, kind: u32, numbers: *const f64, numbers_len: usize,
        bounds: *const f64, bounds_len: usize, lower: f64, upper: f64, work: *mut u32, work_len: usize,
        floats: *mut f64, floats_len: usize, answer: *mut u64, answer_len: usize,
    ) -> u32;
    fn quads_page(
        points: *const f64, points_len: usize, quads: *const u32, quads_len: usize, labels: *const u8,
        labels_len: usize, np: usize, nq: usize, nl: usize, kind: u32, numbers: *const f64, numbers_len: usize,
        bounds: *const f64, bounds_len: usize, lower: f64, upper: f64, work: *mut u32, work_len: usize,
        floats: *mut f64, floats_len: usize, page: *mut u8, page_len: usize,
    ) -> u32;
    fn quads_save_job(
        header: *const f64, header_len: usize, points: *const f64, points_len: usize, quads: *const u32,
        quads_len: usize, labels: *const u8, labels_len: usize, np: usize, nq: usize, nl: usize, work: *mut u32,
        work_len: usize, file: *mut u8, file_len: usize, answer: *mut u64, answer_len: usize,
    ) -> u32;
    fn quads_open_job(
        file: *const u8, file_len: usize, header: *mut f64, header_len: usize, new_points: *mut f64,
        new_points_len: usize, new_quads: *mut u32, new_quads_len: usize, new_labels: *mut u8, new_labels_len: usize,
        work: *mut u32, work_len: usize, answer: *mut u64, answer_len: usize,
    ) -> u32;
    fn quads_job_sum(file: *const u8, file_len: usize, answer: *mut u64, answer_len: usize) -> u32;
}

/// Calls an export. Each group of arguments in turn adds its own to the list, a slice as its pointer and its length.
macro_rules! call {
    ($name:ident($($list:ident)*)) => {
        // SAFETY: each pointer goes with the length of its slice, and no slice that is written overlaps another.
        unsafe { $name($($list),*) }
    };
    ($name:ident($($list:ident)*) number $n:expr; $($rest:tt)*) => {{
        let number = $n;
        call!($name($($list)* number) $($rest)*)
    }};
    ($name:ident($($list:ident)*) reads $s:expr; $($rest:tt)*) => {{
        let (length, pointer) = ($s.len(), $s.as_ptr());
        call!($name($($list)* pointer length) $($rest)*)
    }};
    ($name:ident($($list:ident)*) writes $s:expr; $($rest:tt)*) => {{
        let (length, pointer) = ($s.len(), $s.as_mut_ptr());
        call!($name($($list)* pointer length) $($rest)*)
    }};
    ($name:ident($($list:ident)*) counts $c:expr; $($rest:tt)*) => {
        call!($name($($list)*) number $c.points; number $c.quads; number $c.labels; $($rest)*)
    };
    ($name:ident($($list:ident)*) sheet $s:ident; $($rest:tt)*) => {
        call!($name($($list)*) reads $s.points; reads $s.quads; reads $s.labels; counts $s.counts; $($rest)*)
    };
    ($name:ident($($list:ident)*) swapped $s:ident; $($rest:tt)*) => {
        call!($name($($list)*) reads $s.points; writes $s.quads; reads $s.labels; counts $s.counts; $($rest)*)
    };
    ($name:ident($($list:ident)*) merged $s:ident; $($rest:tt)*) => {
        call!($name($($list)*) made $s; counts $s.counts; $($rest)*)
    };
    ($name:ident($($list:ident)*) made $s:ident; $($rest:tt)*) => {
        call!($name($($list)*) writes $s.points; writes $s.quads; writes $s.labels; $($rest)*)
    };
    ($name:ident($($list:ident)*) band $b:ident; $($rest:tt)*) => {
        call!($name($($list)*) number $b.kind; reads $b.numbers; reads $b.bounds; levels $b; $($rest)*)
    };
    ($name:ident($($list:ident)*) levels $b:ident; $($rest:tt)*) => {
        call!($name($($list)*) number $b.lower; number $b.upper; $($rest)*)
    };
    ($name:ident($($list:ident)*) work $w:ident; $($rest:tt)*) => {
        call!($name($($list)*) writes $w.wholes; writes $w.floats; $($rest)*)
    };
}

/// `quads_extract_candidate`.
pub fn extract_candidate(band: BandRef, cells: usize, made: SheetOut, work: WorkMut, answer: &mut [u64]) -> u32 {
    call!(quads_extract_candidate() band band; number cells; made made; work work; writes answer;)
}

/// `quads_refine`.
pub fn refine(sheet: SheetRef, made: SheetOut, work: WorkMut, answer: &mut [u64]) -> u32 {
    call!(quads_refine() sheet sheet; made made; work work; writes answer;)
}

/// `quads_subdivide`.
pub fn subdivide(sheet: SheetRef, band: BandRef, made: SheetOut, work: WorkMut, answer: &mut [u64]) -> u32 {
    call!(quads_subdivide() sheet sheet; band band; made made; work work; writes answer;)
}

/// `quads_boundary_rows`.
pub fn boundary_rows(sheet: SheetRef, band: BandRef, made: SheetOut, work: WorkMut, answer: &mut [u64]) -> u32 {
    call!(quads_boundary_rows() sheet sheet; band band; made made; work work; writes answer;)
}

/// `quads_regularize`: of the sheet, the quads are written.
pub fn regularize(sheet: SheetMut, band: BandRef, passes: usize, work: WorkMut, answer: &mut [u64]) -> u32 {
    call!(quads_regularize() swapped sheet; band band; number passes; work work; writes answer;)
}

/// `quads_improve_layout`: of the sheet, the quads are written.
pub fn improve_layout(sheet: SheetMut, band: BandRef, passes: usize, work: WorkMut, answer: &mut [u64]) -> u32 {
    call!(quads_improve_layout() swapped sheet; band band; number passes; work work; writes answer;)
}

/// `quads_coarsen`.
pub fn coarsen(sheet: SheetMut, band: BandRef, passes: usize, work: WorkMut, answer: &mut [u64]) -> u32 {
    call!(quads_coarsen() merged sheet; band band; number passes; work work; writes answer;)
}

/// `quads_quality`.
pub fn quality(sheet: SheetRef, band: BandRef, work: WorkMut, answer: &mut [u64], measures: &mut [f64]) -> u32 {
    call!(quads_quality() sheet sheet; band band; work work; writes answer; writes measures;)
}

/// `quads_corners_per_point`.
pub fn corners_per_point(sheet: SheetRef, band: BandRef, work: WorkMut, answer: &mut [u64]) -> u32 {
    call!(quads_corners_per_point() sheet sheet; band band; work work; writes answer;)
}

/// `quads_page`.
pub fn page(sheet: SheetRef, band: BandRef, work: WorkMut, page: &mut [u8]) -> u32 {
    call!(quads_page() sheet sheet; band band; work work; writes page;)
}

/// `quads_save_job`: the header is low x, y, z, high x, y, z, lower and upper level; the work is one element a point.
pub fn save_job(header: &[f64], sheet: SheetRef, work: &mut [u32], file: &mut [u8], answer: &mut [u64]) -> u32 {
    call!(quads_save_job() reads header; sheet sheet; writes work; writes file; writes answer;)
}

/// `quads_open_job`: all of the file slice is the file; the work is one element a point.
pub fn open_job(file: &[u8], header: &mut [f64], made: SheetOut, work: &mut [u32], answer: &mut [u64]) -> u32 {
    call!(quads_open_job() reads file; writes header; made made; writes work; writes answer;)
}

/// `quads_job_sum`: all of the file slice is the file.
pub fn job_sum(file: &[u8], answer: &mut [u64]) -> u32 {
    call!(quads_job_sum() reads file; writes answer;)
}

#[cfg(test)]
mod tests {
    use super::*;

    #[test]
    fn an_answer_is_a_count_and_the_counts_of_a_sheet() {
        let sheet = Counts { points: 2, quads: 3, labels: 4 };
        assert_eq!(Answer::from([1, 2, 3, 4]), Answer { count: 1, sheet });
    }
}
