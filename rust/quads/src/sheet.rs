//! The sheet.
use crate::ffi::{SheetMut, SheetOut, SheetRef};

/// How many points, quads and labels a sheet has.
#[derive(Clone, Copy, Debug, Default, PartialEq, Eq, Hash)]
pub struct Counts {
    /// The points.
    pub points: usize,
    /// The quads.
    pub quads: usize,
    /// The labels.
    pub labels: usize,
}

impl Counts {
    /// The largest of the three.
    pub fn largest(self) -> usize {
        self.points.max(self.quads).max(self.labels)
    }
}

/// A labelled quad sheet.
#[derive(Clone, Debug, Default, PartialEq)]
pub struct Sheet {
    /// The points.
    pub points: Vec<[f64; 3]>,
    /// The quads, by the numbers of their four corners.
    pub quads: Vec<[u32; 4]>,
    /// One label a quad, by the numbers of [`Label`](crate::Label): 0 upper level, 1 lower level, 2 and 3 the low and
    /// high box faces in x, 4 and 5 in y, 6 and 7 in z.
    pub labels: Vec<u8>,
}

impl Sheet {
    /// How many points, quads and labels it has.
    pub fn counts(&self) -> Counts {
        Counts { points: self.points.len(), quads: self.quads.len(), labels: self.labels.len() }
    }

    /// The sheet as the library reads it.
    pub(crate) fn as_sheet_ref(&self) -> SheetRef<'_> {
        SheetRef {
            points: self.points.as_flattened(),
            quads: self.quads.as_flattened(),
            labels: &self.labels,
            counts: self.counts(),
        }
    }

    /// The sheet as the library alters it.
    pub(crate) fn as_sheet_mut(&mut self) -> SheetMut<'_> {
        let counts = self.counts();
        SheetMut {
            points: self.points.as_flattened_mut(),
            quads: self.quads.as_flattened_mut(),
            labels: &mut self.labels,
            counts,
        }
    }

    /// The sheet as the library writes a new one.
    pub(crate) fn as_sheet_out(&mut self) -> SheetOut<'_> {
        SheetOut {
            points: self.points.as_flattened_mut(),
            quads: self.quads.as_flattened_mut(),
            labels: &mut self.labels,
        }
    }

    /// A sheet of zeros with these counts.
    pub(crate) fn blank(Counts { points, quads, labels }: Counts) -> Sheet {
        Sheet { points: vec![[0.0; 3]; points], quads: vec![[0; 4]; quads], labels: vec![0; labels] }
    }

    /// Keeps the first points, quads and labels, of these counts.
    pub(crate) fn truncate(&mut self, Counts { points, quads, labels }: Counts) {
        self.points.truncate(points);
        self.quads.truncate(quads);
        self.labels.truncate(labels);
    }
}

#[cfg(test)]
mod tests {
    use super::*;

    #[test]
    fn lists_are_flat() {
        let sheet =
            Sheet { points: vec![[1.0, 2.0, 3.0], [4.0, 5.0, 6.0]], quads: vec![[0, 1, 2, 3]], labels: vec![7] };
        let flat = sheet.as_sheet_ref();
        assert_eq!(flat.points, [1.0, 2.0, 3.0, 4.0, 5.0, 6.0]);
        assert_eq!((flat.quads, flat.labels), (&[0, 1, 2, 3][..], &[7][..]));
        assert_eq!(flat.counts, Counts { points: 2, quads: 1, labels: 1 });
    }

    #[test]
    fn a_blank_sheet_is_cut_to_its_counts() {
        let counts = Counts { points: 5, quads: 4, labels: 3 };
        let mut sheet = Sheet::blank(counts);
        assert_eq!((sheet.counts(), counts.largest()), (counts, 5));
        let fewer = Counts { points: 2, quads: 4, labels: 0 };
        sheet.truncate(fewer);
        assert_eq!((sheet.counts(), fewer.largest()), (fewer, 4));
    }
}
