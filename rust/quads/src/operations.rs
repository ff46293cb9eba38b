//! The operations.
use crate::band::{Band, FlatBand};
use crate::cause::Cause;
use crate::ffi::{self, Answer, BandRef, SheetMut, SheetOut, SheetRef, WorkMut};
use crate::look;
use crate::quality::Quality;
use crate::ratio::Ratio;
use crate::refusal::{self, Refusal};
use crate::refused::Refused;
use crate::sheet::{Counts, Sheet};
use crate::sizes::{self, PAGE};
use crate::workspace::Workspace;

/// What a number of the library says: nothing for 0, else the refusal with what a look finds.
pub(crate) fn accepted(number: u32, look: impl FnOnce(Refusal) -> Option<Cause>) -> Result<(), Refused> {
    refusal::accepted(number).map_err(|refusal| Refused::new(refusal, look(refusal)))
}

/// The sheet of an answer, out of the room in which it was made.
pub(crate) fn made(mut sheet: Sheet, answer: [u64; 4]) -> Sheet {
    sheet.truncate(Answer::from(answer).sheet);
    sheet
}

/// An export that makes a sheet of another and a band.
type Making = fn(SheetRef, BandRef, SheetOut, WorkMut, &mut [u64]) -> u32;

/// An export that alters a sheet.
type Altering = fn(SheetMut, BandRef, usize, WorkMut, &mut [u64]) -> u32;

/// The operations. They refuse by the numbers of [`Refusal`], the first in the order that is named at each. A band of
/// which a level is not finite is wrong (1); those that measure, `quality`, `corners_per_point` and `page`, take a
/// lower level of minus infinity, so that old sheets can be measured.
impl Sheet {
    /// Draws the sheet around a band, over a grid of 4 to 128 cells a side.
    ///
    /// # Errors
    ///
    /// The band is wrong (1), the number of cells is (3), the field is not finite on the grid (4), the sheet would be
    /// above the limit (13), nothing is drawn (5), or the band is too thin for the cells (7).
    pub fn extract_candidate(band: &Band, cells: usize) -> Result<Sheet, Refused> {
        Workspace::new().extract_candidate(band, cells)
    }

    /// The finer sheet: each quad becomes four, each edge has its midpoint, each quad its centre.
    ///
    /// # Errors
    ///
    /// The sheet is above the limit (12), does not have one label a quad (5) or has a corner that names no point (6),
    /// or the finer sheet would be above the limit (13).
    pub fn refine(&self) -> Result<Sheet, Refused> {
        Workspace::new().refine(self)
    }

    /// The finer sheet, smoothed by the rule of Catmull and Clark with creases between labels, and projected onto the
    /// band.
    ///
    /// # Errors
    ///
    /// The sheet is above the limit (12), the band is wrong (1), the sheet is (5, 6, 7), the finer sheet would be
    /// above the limit (13), an edge does not have two quads (8), or a smoothed point is not finite (5) or cannot be
    /// projected (9).
    pub fn subdivide(&self, band: &Band) -> Result<Sheet, Refused> {
        Workspace::new().subdivide(self, band)
    }

    /// The sheet with a row of quads inside each patch of one label.
    ///
    /// # Errors
    ///
    /// The sheet is above the limit (12), the band is wrong (1), the sheet is (5, 6, 7), the new sheet would be above
    /// the limit (13), a row finds no place (10), an edge does not have two quads (8), or a point would be left
    /// without a quad (7).
    pub fn boundary_rows(&self, band: &Band) -> Result<Sheet, Refused> {
        Workspace::new().boundary_rows(self, band)
    }

    /// Swaps edges that bring the points nearer to four quads each, in at most so many passes: the number of swaps. A
    /// point may have any number of quads up to [`LIMIT`](crate::LIMIT): how many it has never passes that number.
    ///
    /// # Errors
    ///
    /// The sheet is above the limit (12), the band is wrong (1), or the sheet is (5, 6, 7). The sheet is then as it
    /// came.
    pub fn regularize(&mut self, band: &Band, passes: usize) -> Result<usize, Refused> {
        Workspace::new().regularize(self, band, passes)
    }

    /// `regularize`, which also takes a swap that changes nothing in that but makes a better shape: the number of
    /// swaps.
    ///
    /// # Errors
    ///
    /// Those of [`regularize`](Sheet::regularize).
    pub fn improve_layout(&mut self, band: &Band, passes: usize) -> Result<usize, Refused> {
        Workspace::new().improve_layout(self, band, passes)
    }

    /// Merges opposite corners of quads, in at most so many passes: the number of merges.
    ///
    /// # Errors
    ///
    /// Those of [`regularize`](Sheet::regularize); with no pass only the first: the band is not looked at then.
    pub fn coarsen(&mut self, band: &Band, passes: usize) -> Result<usize, Refused> {
        Workspace::new().coarsen(self, band, passes)
    }

    /// Measures the sheet. The lower level may be minus infinity.
    ///
    /// # Errors
    ///
    /// The sheet is above the limit (12), the band is wrong (1), the sheet is (5, 6, 7), or the field has no
    /// direction at the centre of a quad (11).
    pub fn quality(&self, band: &Band) -> Result<Quality, Refused> {
        Workspace::new().quality(self, band)
    }

    /// The corners per point, exactly: 4 × quads ÷ points as a whole number and the remainder. The cube has 3 and 0.
    /// The lower level may be minus infinity.
    ///
    /// # Errors
    ///
    /// Those of [`quality`](Sheet::quality) apart from the last: the field need not have a direction (11).
    pub fn corners_per_point(&self, band: &Band) -> Result<Ratio, Refused> {
        Workspace::new().corners_per_point(self, band)
    }

    /// The page: the eight counts of [`quality`](Sheet::quality) in the record's order, one to a line. A line is ASCII
    /// text of 41 bytes, its name left in 24 columns, its count right in 16, then a line feed. The lower level may be
    /// minus infinity.
    ///
    /// # Errors
    ///
    /// Those of [`quality`](Sheet::quality).
    pub fn page(&self, band: &Band) -> Result<[u8; PAGE], Refused> {
        Workspace::new().page(self, band)
    }
}

/// The operations, with the work that is kept.
impl Workspace {
    /// [`Sheet::extract_candidate`].
    ///
    /// # Errors
    ///
    /// Those of [`Sheet::extract_candidate`].
    pub fn extract_candidate(&mut self, band: &Band, cells: usize) -> Result<Sheet, Refused> {
        let (flat, mut sheet, mut answer) = (FlatBand::from(band), Sheet::blank(sizes::drawn(cells)), [0; 4]);
        let (out, work) = (sheet.as_sheet_out(), self.lend(sizes::draw_work(cells)));
        let number = ffi::extract_candidate(flat.as_band_ref(), cells, out, work, &mut answer);
        accepted(number, |refusal| look::drawing(refusal, band, cells))?;
        Ok(made(sheet, answer))
    }

    /// [`Sheet::refine`].
    ///
    /// # Errors
    ///
    /// Those of [`Sheet::refine`].
    pub fn refine(&mut self, sheet: &Sheet) -> Result<Sheet, Refused> {
        let (mut finer, mut answer) = (Sheet::blank(sizes::finer(sheet.counts())), [0; 4]);
        let number = ffi::refine(sheet.as_sheet_ref(), finer.as_sheet_out(), self.work_for(sheet), &mut answer);
        accepted(number, |refusal| look::refining(refusal, sheet))?;
        Ok(made(finer, answer))
    }

    /// [`Sheet::subdivide`].
    ///
    /// # Errors
    ///
    /// Those of [`Sheet::subdivide`].
    pub fn subdivide(&mut self, sheet: &Sheet, band: &Band) -> Result<Sheet, Refused> {
        self.make(ffi::subdivide, sizes::finer(sheet.counts()), sheet, band)
    }

    /// [`Sheet::boundary_rows`].
    ///
    /// # Errors
    ///
    /// Those of [`Sheet::boundary_rows`].
    pub fn boundary_rows(&mut self, sheet: &Sheet, band: &Band) -> Result<Sheet, Refused> {
        self.make(ffi::boundary_rows, sizes::with_rows(sheet.counts()), sheet, band)
    }

    /// [`Sheet::regularize`].
    ///
    /// # Errors
    ///
    /// Those of [`Sheet::regularize`].
    pub fn regularize(&mut self, sheet: &mut Sheet, band: &Band, passes: usize) -> Result<usize, Refused> {
        self.alter(ffi::regularize, sheet, band, passes)
    }

    /// [`Sheet::improve_layout`].
    ///
    /// # Errors
    ///
    /// Those of [`Sheet::regularize`].
    pub fn improve_layout(&mut self, sheet: &mut Sheet, band: &Band, passes: usize) -> Result<usize, Refused> {
        self.alter(ffi::improve_layout, sheet, band, passes)
    }

    /// [`Sheet::coarsen`].
    ///
    /// # Errors
    ///
    /// Those of [`Sheet::coarsen`].
    pub fn coarsen(&mut self, sheet: &mut Sheet, band: &Band, passes: usize) -> Result<usize, Refused> {
        self.alter(ffi::coarsen, sheet, band, passes)
    }

    /// [`Sheet::quality`].
    ///
    /// # Errors
    ///
    /// Those of [`Sheet::quality`].
    pub fn quality(&mut self, sheet: &Sheet, band: &Band) -> Result<Quality, Refused> {
        let (flat, mut answer, mut measures) = (FlatBand::from(band), [0; 10], [0.0; 4]);
        let (lent, work) = (sheet.as_sheet_ref(), self.work_for(sheet));
        let number = ffi::quality(lent, flat.as_band_ref(), work, &mut answer, &mut measures);
        accepted(number, |refusal| look::measuring(refusal, sheet, band))?;
        Ok(Quality::new(answer, measures))
    }

    /// [`Sheet::corners_per_point`].
    ///
    /// # Errors
    ///
    /// Those of [`Sheet::corners_per_point`].
    pub fn corners_per_point(&mut self, sheet: &Sheet, band: &Band) -> Result<Ratio, Refused> {
        let (flat, mut answer) = (FlatBand::from(band), [0; 2]);
        let (lent, work) = (sheet.as_sheet_ref(), self.work_for(sheet));
        let number = ffi::corners_per_point(lent, flat.as_band_ref(), work, &mut answer);
        accepted(number, |refusal| look::measuring(refusal, sheet, band))?;
        Ok(Ratio::new(answer))
    }

    /// [`Sheet::page`].
    ///
    /// # Errors
    ///
    /// Those of [`Sheet::page`].
    pub fn page(&mut self, sheet: &Sheet, band: &Band) -> Result<[u8; PAGE], Refused> {
        let (flat, mut page) = (FlatBand::from(band), [0; PAGE]);
        let (lent, work) = (sheet.as_sheet_ref(), self.work_for(sheet));
        let number = ffi::page(lent, flat.as_band_ref(), work, &mut page);
        accepted(number, |refusal| look::measuring(refusal, sheet, band))?;
        Ok(page)
    }

    /// The work of a call on a sheet.
    fn work_for(&mut self, sheet: &Sheet) -> WorkMut<'_> {
        self.lend(sizes::sheet_work(sheet.counts()))
    }

    /// The sheet that an export makes in room for these counts.
    fn make(&mut self, export: Making, most: Counts, sheet: &Sheet, band: &Band) -> Result<Sheet, Refused> {
        let (flat, mut new, mut answer) = (FlatBand::from(band), Sheet::blank(most), [0; 4]);
        let (out, work) = (new.as_sheet_out(), self.work_for(sheet));
        let number = export(sheet.as_sheet_ref(), flat.as_band_ref(), out, work, &mut answer);
        accepted(number, |refusal| look::lent(refusal, sheet, band))?;
        Ok(made(new, answer))
    }

    /// Alters a sheet by an export, and gives its count.
    fn alter(&mut self, export: Altering, sheet: &mut Sheet, band: &Band, passes: usize) -> Result<usize, Refused> {
        let (flat, mut answer) = (FlatBand::from(band), [0; 4]);
        let work = self.work_for(sheet);
        let number = export(sheet.as_sheet_mut(), flat.as_band_ref(), passes, work, &mut answer);
        accepted(number, |refusal| look::lent(refusal, sheet, band))?;
        let answer = Answer::from(answer);
        sheet.truncate(answer.sheet);
        Ok(answer.count)
    }
}
