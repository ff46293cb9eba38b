//! The job: a sheet with its box and levels, as a file keeps them.
use crate::band::{Band, Field};
use crate::ffi::{self, Answer};
use crate::look;
use crate::operations::{accepted, made};
use crate::refused::Refused;
use crate::sheet::Sheet;
use crate::sizes;
use crate::workspace::Workspace;

/// A sheet with the box and the levels of its band. The field is not in the file: who opens a job brings it.
///
/// Saving and opening gives the same bits, those of a NaN too. Neither tests the sheet, the box or the levels: labels
/// may be more or fewer than quads, and the box need not be one. A sheet whose lower level is minus infinity opens as
/// any other, and can be measured. The file also has the squared sum of the sheet, the sum over its points of (quads at
/// the point minus 4) squared, which [`Job::sum`] reads without opening the sheet; opening asks that it is that of its
/// quads.
///
/// ```
/// use quads::{Band, Field, Job, Sheet};
///
/// let field = Field::Ball { cx: 0.0, cy: 0.0, cz: 0.0, r: 0.0 };
/// let band = Band { field, low: [-1.0; 3], high: [1.0; 3], lower: 0.25, upper: 0.64 };
/// let job = Job::new(&band, Sheet::extract_candidate(&band, 16)?);
/// let file: Vec<u8> = job.save()?;
/// let opened = Job::open(&file)?;
/// assert_eq!((opened.band(field), opened.sheet), (band, job.sheet));
/// # Ok::<(), quads::Refused>(())
/// ```
#[derive(Clone, Debug, Default, PartialEq)]
pub struct Job {
    /// The low corner of the box.
    pub low: [f64; 3],
    /// The high corner of the box.
    pub high: [f64; 3],
    /// The lower level.
    pub lower: f64,
    /// The upper level.
    pub upper: f64,
    /// The sheet.
    pub sheet: Sheet,
}

impl Job {
    /// The job of a sheet and its band.
    pub fn new(&Band { low, high, lower, upper, .. }: &Band, sheet: Sheet) -> Job {
        Job { low, high, lower, upper, sheet }
    }

    /// The band of a field in the job's box, between its levels.
    pub fn band(&self, field: Field) -> Band {
        let Job { low, high, lower, upper, .. } = *self;
        Band { field, low, high, lower, upper }
    }

    /// The file that keeps it.
    ///
    /// # Errors
    ///
    /// The sheet is above the limit (12).
    pub fn save(&self) -> Result<Vec<u8>, Refused> {
        Workspace::new().save(self)
    }

    /// The job that a file keeps; all bytes are the file. Files that were saved before the sum was in them open too.
    ///
    /// # Errors
    ///
    /// The file is too short or its trailer is wrong (14), its sheet is above the limit (12), or the squared sum that
    /// its trailer says is not that of its sheet (17).
    pub fn open(file: &[u8]) -> Result<Job, Refused> {
        Workspace::new().open(file)
    }

    /// The squared sum as the trailer of a file says it; none where the file was saved before the sum was in it. The
    /// sheet is not looked at: that the sum is the sheet's is known once the file opens.
    ///
    /// ```
    /// use quads::{Job, Sheet};
    ///
    /// let points = vec![[0.0; 3], [1.0, 0.0, 0.0], [1.0, 1.0, 0.0], [0.0, 1.0, 0.0]];
    /// let sheet = Sheet { points, quads: vec![[0, 1, 2, 3], [3, 2, 1, 0]], labels: vec![6, 6] };
    /// let file = Job { sheet, ..Job::default() }.save()?;
    /// // Each of the four points has two quads, and (2 - 4) squared is 4.
    /// assert_eq!(Job::sum(&file)?, Some(16));
    /// # Ok::<(), quads::Refused>(())
    /// ```
    ///
    /// # Errors
    ///
    /// The file is too short or its trailer is wrong (14).
    pub fn sum(file: &[u8]) -> Result<Option<u64>, Refused> {
        let mut answer = [0; 2];
        accepted(ffi::job_sum(file, &mut answer), |refusal| look::opening(refusal, file))?;
        let [written, sum] = answer;
        Ok((written == 1).then_some(sum))
    }

    /// The eight numbers that begin the file.
    fn header(&self) -> [f64; 8] {
        let ([x, y, z], [high_x, high_y, high_z]) = (self.low, self.high);
        [x, y, z, high_x, high_y, high_z, self.lower, self.upper]
    }
}

/// Jobs, with the work of this workspace.
impl Workspace {
    /// [`Job::save`].
    ///
    /// # Errors
    ///
    /// Those of [`Job::save`].
    pub fn save(&mut self, job: &Job) -> Result<Vec<u8>, Refused> {
        let (sheet, counts) = (&job.sheet, job.sheet.counts());
        let (mut file, mut answer) = (vec![0; sizes::job_bytes(counts)], [0; 4]);
        let work = self.lend(sizes::job_work(counts)).wholes;
        let number = ffi::save_job(&job.header(), sheet.as_sheet_ref(), work, &mut file, &mut answer);
        accepted(number, |refusal| look::saving(refusal, sheet))?;
        file.truncate(Answer::from(answer).count);
        Ok(file)
    }

    /// [`Job::open`].
    ///
    /// # Errors
    ///
    /// Those of [`Job::open`].
    pub fn open(&mut self, file: &[u8]) -> Result<Job, Refused> {
        let (mut header, mut answer) = ([0.0; 8], [0; 4]);
        let most = sizes::opened(file.len());
        let (mut sheet, work) = (Sheet::blank(most), self.lend(sizes::job_work(most)).wholes);
        let number = ffi::open_job(file, &mut header, sheet.as_sheet_out(), work, &mut answer);
        accepted(number, |refusal| look::opening(refusal, file))?;
        let [x, y, z, high_x, high_y, high_z, lower, upper] = header;
        Ok(Job { low: [x, y, z], high: [high_x, high_y, high_z], lower, upper, sheet: made(sheet, answer) })
    }
}

#[cfg(test)]
mod tests {
    use super::*;

    #[test]
    fn the_header_is_low_then_high_then_the_levels() {
        let job = Job { low: [1.0, 2.0, 3.0], high: [4.0, 5.0, 6.0], lower: 7.0, upper: 8.0, ..Job::default() };
        assert_eq!(job.header(), [1.0, 2.0, 3.0, 4.0, 5.0, 6.0, 7.0, 8.0]);
    }

    #[test]
    fn a_field_makes_its_band_again() {
        let field = Field::Plane { a: 1.0, b: 2.0, c: 3.0, d: 4.0 };
        let band = Band { field, low: [1.0, 2.0, 3.0], high: [4.0, 5.0, 6.0], lower: 7.0, upper: 8.0 };
        assert_eq!(Job::new(&band, Sheet::default()).band(field), band);
    }
}
