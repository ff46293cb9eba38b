//! The normals that `quality` takes at the centres of quads.
use super::arithmetic::{centre, gradient, norm, unit};
use crate::band::Band;
use crate::cause::Cause;
use crate::sheet::Sheet;

/// The first quad on a level at whose centre the gradient gives no direction.
pub fn normal(sheet: &Sheet, band: &Band) -> Option<Cause> {
    let levels = sheet.quads.iter().zip(&sheet.labels).enumerate().filter(|(_, (_, label))| **label < 2);
    let mut gradients = levels.map(|(quad, (corners, _))| (quad, gradient(band, centre(sheet, corners))));
    let (quad, gradient) = gradients.find(|&(_, gradient)| !is_direction(unit(gradient)))?;
    Some(Cause::Normal { quad, gradient })
}

/// Whether a normal is finite and no shorter than 0.5.
fn is_direction(normal: [f64; 3]) -> bool {
    normal.iter().all(|x| x.is_finite()) && norm(normal) >= 0.5
}
