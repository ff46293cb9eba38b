//! What quads.rs keeps to its crate or to itself.
use crate::field::Field;
use crate::quads::{Band, QuadMesh, regularize};
use crate::{MeshingError, Point};

/// The tests of levels, bounds and length.
pub fn validate(band: &Band<'_, Field>) -> Result<(), MeshingError> {
    band.validate()
}

/// The gradient of a band's field.
pub fn gradient(band: &Band<'_, Field>, p: Point) -> Point {
    band.gradient(p)
}

/// The normal of a label; the original panics on a label above 7.
pub fn normal(band: &Band<'_, Field>, p: Point, label: u8) -> Point {
    band.normal(p, label)
}

/// The projection; the original panics on some bands that `validate` refuses.
pub fn project(band: &Band<'_, Field>, p: Point, mask: u8) -> Result<Point, MeshingError> {
    band.project(p, mask)
}

/// The tests of a lent sheet: `regularize` with no pass is that and nothing more.
pub fn constraints(sheet: &QuadMesh, band: &Band<'_, Field>) -> Result<(), MeshingError> {
    regularize(&mut sheet.clone(), band, 0).map(|_| ())
}
