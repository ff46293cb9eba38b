//! The sizes of what an operation is lent: its work, and room for the sheet, the page or the file that it makes.
//! `include/quads.h` has those of the page and of a job file as macros, and those of the work but for a job's, which is
//! one element a point.
use crate::sheet::Counts;
use std::ops::RangeInclusive;

/// The most points, quads or labels of a sheet.
pub const LIMIT: usize = 1_048_576;

/// The bytes of a page: eight lines of 41.
pub const PAGE: usize = 328;

/// The most bytes of a job file, those of a sheet at the limit.
pub const LARGEST_JOB: usize = 92 + (24 + 16 + 1) * LIMIT;

/// The numbers of cells a side that a drawing may have.
pub const CELLS: RangeInclusive<usize> = 4..=128;

/// The elements of the two work slices.
#[derive(Clone, Copy, Debug, Default, PartialEq, Eq)]
pub struct WorkSize {
    /// Whole numbers.
    pub wholes: usize,
    /// Floats.
    pub floats: usize,
}

/// The work for a lent sheet. One above the limit needs none: it is refused before work is used.
pub fn sheet_work(sheet: Counts) -> WorkSize {
    if sheet.largest() > LIMIT {
        return WorkSize::default();
    }
    let n = sheet.points + sheet.quads;
    WorkSize { wholes: 64 * n, floats: 16 * n }
}

/// The work for drawing. Other numbers of cells than 4 to 128 need none: they are refused before work is used.
pub fn draw_work(cells: usize) -> WorkSize {
    if !CELLS.contains(&cells) {
        return WorkSize::default();
    }
    WorkSize { wholes: 12 * (cells + 2).pow(3), floats: (cells + 3).pow(3) }
}

/// At most these points and quads, with one label a quad. More than the limit is never made.
fn at_most(points: usize, quads: usize) -> Counts {
    let quads = quads.min(LIMIT);
    Counts { points: points.min(LIMIT), quads, labels: quads }
}

/// The most that the finer sheet has: a quad adds at most four points on its edges and its centre, and becomes four.
pub fn finer(sheet: Counts) -> Counts {
    at_most(sheet.points.saturating_add(sheet.quads.saturating_mul(5)), sheet.quads.saturating_mul(4))
}

/// The most that the sheet with rows has: a point has at most four labels, hence copies; a quad has at most four
/// strips.
pub fn with_rows(sheet: Counts) -> Counts {
    at_most(sheet.points.saturating_mul(5), sheet.quads.saturating_mul(5))
}

/// The most that a drawn sheet has: each point of a cell takes three or more of the cell's twelve edges, and each of
/// the three lower edges gives one quad.
pub fn drawn(cells: usize) -> Counts {
    if !CELLS.contains(&cells) {
        return Counts::default();
    }
    let n = (cells + 2).pow(3);
    at_most(4 * n, 3 * n)
}

/// The bytes of the job file of a sheet. One above the limit needs none: it is refused before anything is written.
pub fn job_bytes(sheet: Counts) -> usize {
    if sheet.largest() > LIMIT {
        return 0;
    }
    92 + 24 * sheet.points + 16 * sheet.quads + sheet.labels
}

/// The work for saving a sheet, or for opening a job file with one, one whole number a point and no floats. A sheet
/// above the limit needs none: it is refused before work is used.
pub fn job_work(sheet: Counts) -> WorkSize {
    let wholes = if sheet.largest() > LIMIT { 0 } else { sheet.points };
    WorkSize { wholes, floats: 0 }
}

/// The most that the sheet of a job file of so many bytes has: a point takes 24 of them, a quad 16 and a label one.
pub fn opened(bytes: usize) -> Counts {
    let [points, quads, labels] = [24, 16, 1].map(|size| (bytes / size).min(LIMIT));
    Counts { points, quads, labels }
}

#[cfg(test)]
mod tests {
    use super::*;

    /// The cube's counts.
    const CUBE: Counts = Counts { points: 8, quads: 6, labels: 6 };

    #[test]
    fn work_is_what_the_library_asks() {
        assert_eq!(sheet_work(CUBE), WorkSize { wholes: 64 * 14, floats: 16 * 14 });
        assert_eq!(draw_work(4), WorkSize { wholes: 12 * 216, floats: 343 });
        assert_eq!(job_work(CUBE), WorkSize { wholes: 8, floats: 0 });
    }

    #[test]
    fn what_is_refused_first_takes_nothing() {
        let most = Counts { points: LIMIT, quads: LIMIT, labels: LIMIT };
        assert_eq!(sheet_work(most).wholes, 128 * LIMIT);
        for large in [
            Counts { points: LIMIT + 1, ..CUBE },
            Counts { quads: usize::MAX, ..CUBE },
            Counts { labels: LIMIT + 1, ..CUBE },
        ] {
            assert_eq!((sheet_work(large), job_bytes(large)), (WorkSize::default(), 0));
            assert_eq!(job_work(large), WorkSize::default());
        }
        for cells in [0, 3, 129, usize::MAX] {
            assert_eq!((draw_work(cells), drawn(cells)), (WorkSize::default(), Counts::default()));
        }
    }

    #[test]
    fn results_stay_within_the_limit() {
        assert_eq!(finer(CUBE), Counts { points: 38, quads: 24, labels: 24 });
        assert_eq!(with_rows(CUBE), Counts { points: 40, quads: 30, labels: 30 });
        assert_eq!(drawn(4), Counts { points: 864, quads: 648, labels: 648 });
        let largest = Counts { points: usize::MAX, quads: usize::MAX, labels: usize::MAX };
        let limits = Counts { points: LIMIT, quads: LIMIT, labels: LIMIT };
        assert_eq!([finer(largest), with_rows(largest), drawn(128), opened(usize::MAX)], [limits; 4]);
    }

    #[test]
    fn a_job_file_has_its_bytes_and_room_for_its_sheet() {
        assert_eq!((job_bytes(Counts::default()), job_bytes(CUBE)), (92, 386));
        let most = Counts { points: LIMIT, quads: LIMIT, labels: LIMIT };
        assert_eq!((job_bytes(most), opened(LARGEST_JOB)), (LARGEST_JOB, most));
        assert_eq!((LARGEST_JOB, job_work(most).wholes), (42_991_708, LIMIT));
        assert_eq!(opened(378), Counts { points: 15, quads: 23, labels: 378 });
    }
}
