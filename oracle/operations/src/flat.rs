//! Sheets, bands and work as the library is lent them: flat lists with their counts.
use oracle::field::BandNumbers;
use oracle::quads::QuadMesh;
use quads::Counts;
use quads::ffi::{BandRef, SheetMut, SheetOut, SheetRef, WorkMut};
use quads::sizes::WorkSize;

/// A sheet in flat lists, with its counts.
#[derive(Clone)]
pub struct Flat {
    /// Three coordinates a point.
    pub points: Vec<f64>,
    /// Four point numbers a quad.
    pub quads: Vec<u32>,
    /// One label a quad.
    pub labels: Vec<u8>,
    /// The points, quads and labels of the sheet.
    pub counts: Counts,
}

impl Flat {
    /// A lent sheet.
    pub fn of(sheet: &QuadMesh) -> Flat {
        Flat {
            points: sheet.points.as_flattened().to_vec(),
            quads: sheet.quads.as_flattened().iter().map(|&corner| corner as u32).collect(),
            labels: sheet.labels.clone(),
            counts: Counts { points: sheet.points.len(), quads: sheet.quads.len(), labels: sheet.labels.len() },
        }
    }

    /// A lent sheet with something behind it in each list, which must be cleared.
    pub fn with_tails(sheet: &QuadMesh) -> Flat {
        let mut flat = Flat::of(sheet);
        flat.points.extend([f64::NAN; 5]);
        flat.quads.extend([u32::MAX; 3]);
        flat.labels.extend([255; 2]);
        flat
    }

    /// Room for a sheet of these counts, filled with what must be overwritten.
    pub fn room(counts: Counts) -> Flat {
        let Counts { points, quads, labels } = counts;
        Flat { points: vec![f64::NAN; 3 * points], quads: vec![u32::MAX; 4 * quads], labels: vec![255; labels], counts }
    }

    /// The sheet of these counts, if all behind it is zero.
    pub fn sheet(&self, Counts { points, quads, labels }: Counts) -> Option<QuadMesh> {
        let (p, behind_p) = self.points.split_at_checked(3 * points)?;
        let (q, behind_q) = self.quads.split_at_checked(4 * quads)?;
        let (l, behind_l) = self.labels.split_at_checked(labels)?;
        let zero = behind_p.iter().all(|x| x.to_bits() == 0)
            && behind_q.iter().all(|&x| x == 0)
            && behind_l.iter().all(|&x| x == 0);
        zero.then(|| QuadMesh {
            points: p.as_chunks().0.to_vec(),
            quads: q.as_chunks().0.iter().map(|quad: &[u32; 4]| quad.map(|corner| corner as usize)).collect(),
            labels: l.to_vec(),
        })
    }

    /// The sheet as one that is read.
    pub fn as_sheet_ref(&self) -> SheetRef<'_> {
        SheetRef { points: &self.points, quads: &self.quads, labels: &self.labels, counts: self.counts }
    }

    /// The sheet as one that is altered in its own lists.
    pub fn as_sheet_mut(&mut self) -> SheetMut<'_> {
        SheetMut { points: &mut self.points, quads: &mut self.quads, labels: &mut self.labels, counts: self.counts }
    }

    /// The lists as room for a sheet that is made.
    pub fn as_sheet_out(&mut self) -> SheetOut<'_> {
        SheetOut { points: &mut self.points, quads: &mut self.quads, labels: &mut self.labels }
    }

    /// Whether all lists are, bit for bit, those of another.
    pub fn same(&self, other: &Flat) -> bool {
        let bits = |flat: &Flat| flat.points.iter().map(|x| x.to_bits()).collect::<Vec<_>>();
        bits(self) == bits(other) && self.quads == other.quads && self.labels == other.labels
    }
}

/// A band's numbers in flat lists.
pub struct FlatBand {
    /// The kind of its field.
    pub kind: u32,
    /// The ten numbers of its field.
    pub numbers: Vec<f64>,
    /// The six bounds of its box.
    pub bounds: Vec<f64>,
    lower: f64,
    upper: f64,
}

impl From<&BandNumbers> for FlatBand {
    fn from(band: &BandNumbers) -> FlatBand {
        let [lower, upper] = band.levels;
        FlatBand {
            kind: u32::from(band.field.kind()),
            numbers: band.field.numbers().to_vec(),
            bounds: band.bounds.as_flattened().to_vec(),
            lower,
            upper,
        }
    }
}

impl FlatBand {
    /// The band as it is given.
    pub fn as_band_ref(&self) -> BandRef<'_> {
        BandRef { kind: self.kind, numbers: &self.numbers, bounds: &self.bounds, lower: self.lower, upper: self.upper }
    }
}

/// The two work slices, filled with what must be cleared.
pub struct Work {
    /// Whole numbers.
    pub wholes: Vec<u32>,
    /// Floats.
    pub floats: Vec<f64>,
}

impl From<WorkSize> for Work {
    /// What is asked and no more, but something to clear where nothing is.
    fn from(size: WorkSize) -> Work {
        Work { wholes: vec![u32::MAX; size.wholes.max(1)], floats: vec![f64::NAN; size.floats.max(1)] }
    }
}

impl Work {
    /// Both as they are lent.
    pub fn as_work_mut(&mut self) -> WorkMut<'_> {
        WorkMut { wholes: &mut self.wholes, floats: &mut self.floats }
    }

    /// Whether both are zero.
    pub fn is_zero(&self) -> bool {
        self.wholes.iter().all(|&x| x == 0) && self.floats.iter().all(|x| x.to_bits() == 0)
    }
}
