//! The field and the band.
use crate::ffi::BandRef;

/// A scalar field of x, y and z.
#[derive(Clone, Copy, Debug, PartialEq)]
pub enum Field {
    /// a·x + b·y + c·z − d.
    Plane {
        /// The factor of x.
        a: f64,
        /// The factor of y.
        b: f64,
        /// The factor of z.
        c: f64,
        /// What is subtracted.
        d: f64,
    },
    /// The squared distance from (cx, cy, cz), less r.
    Ball {
        /// The centre's x.
        cx: f64,
        /// The centre's y.
        cy: f64,
        /// The centre's z.
        cz: f64,
        /// What is subtracted.
        r: f64,
    },
    /// k0·x·x + k1·y·y + k2·z·z + k3·x·y + k4·y·z + k5·z·x + k6·x + k7·y + k8·z + k9.
    Quadric([f64; 10]),
}

impl Field {
    /// The number of its kind.
    fn kind(&self) -> u32 {
        match self {
            Field::Plane { .. } => 0,
            Field::Ball { .. } => 1,
            Field::Quadric(_) => 2,
        }
    }

    /// Its numbers in front, zeros behind.
    pub(crate) fn numbers(&self) -> [f64; 10] {
        match *self {
            Field::Plane { a, b, c, d } => [a, b, c, d, 0.0, 0.0, 0.0, 0.0, 0.0, 0.0],
            Field::Ball { cx, cy, cz, r } => [cx, cy, cz, r, 0.0, 0.0, 0.0, 0.0, 0.0, 0.0],
            Field::Quadric(k) => k,
        }
    }
}

/// A band of a field between two levels, cut by a box. Both levels are finite, the lower below the upper; where a sheet
/// is measured, by [`quality`](crate::Sheet::quality), [`corners_per_point`](crate::Sheet::corners_per_point) or
/// [`page`](crate::Sheet::page), the lower level may be minus infinity.
#[derive(Clone, Copy, Debug, PartialEq)]
pub struct Band {
    /// The field.
    pub field: Field,
    /// The low corner of the box.
    pub low: [f64; 3],
    /// The high corner of the box.
    pub high: [f64; 3],
    /// The lower level: finite, or minus infinity where a sheet is measured.
    pub lower: f64,
    /// The upper level.
    pub upper: f64,
}

/// A band's numbers in flat lists.
pub(crate) struct FlatBand {
    kind: u32,
    numbers: [f64; 10],
    bounds: [f64; 6],
    lower: f64,
    upper: f64,
}

impl From<&Band> for FlatBand {
    fn from(band: &Band) -> FlatBand {
        let ([x, y, z], [high_x, high_y, high_z]) = (band.low, band.high);
        FlatBand {
            kind: band.field.kind(),
            numbers: band.field.numbers(),
            bounds: [x, y, z, high_x, high_y, high_z],
            lower: band.lower,
            upper: band.upper,
        }
    }
}

impl FlatBand {
    /// The band as the library is given it.
    pub(crate) fn as_band_ref(&self) -> BandRef<'_> {
        BandRef { kind: self.kind, numbers: &self.numbers, bounds: &self.bounds, lower: self.lower, upper: self.upper }
    }
}

#[cfg(test)]
mod tests {
    use super::*;

    /// A field in the box from (1, 2, 3) to (4, 5, 6), between 7 and 8.
    fn flat(field: Field) -> FlatBand {
        FlatBand::from(&Band { field, low: [1.0, 2.0, 3.0], high: [4.0, 5.0, 6.0], lower: 7.0, upper: 8.0 })
    }

    #[test]
    fn a_field_has_its_kind_and_its_numbers() {
        let plane = flat(Field::Plane { a: 1.0, b: 2.0, c: 3.0, d: 4.0 });
        assert_eq!((plane.kind, plane.numbers), (0, [1.0, 2.0, 3.0, 4.0, 0.0, 0.0, 0.0, 0.0, 0.0, 0.0]));
        let ball = flat(Field::Ball { cx: 1.0, cy: 2.0, cz: 3.0, r: 4.0 });
        assert_eq!((ball.kind, ball.numbers), (1, plane.numbers));
        let k = [0.0, 1.0, 2.0, 3.0, 4.0, 5.0, 6.0, 7.0, 8.0, 9.0];
        let quadric = flat(Field::Quadric(k));
        assert_eq!((quadric.kind, quadric.numbers), (2, k));
    }

    #[test]
    fn bounds_are_low_then_high() {
        let flat = flat(Field::Quadric([0.0; 10]));
        let band = flat.as_band_ref();
        assert_eq!(band.bounds, [1.0, 2.0, 3.0, 4.0, 5.0, 6.0]);
        assert_eq!((band.lower, band.upper), (7.0, 8.0));
    }
}
