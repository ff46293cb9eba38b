//! From a sheet to flat faces, the farthest first.
use super::View;
use super::vector::{Vector, cross, dot, sub, unit};
use crate::labels::{self, Colour};
use quads::Sheet;

/// A quad as it is seen.
#[derive(Clone, Debug, PartialEq)]
pub struct Face {
    /// Its corners in pixels, x to the right and y down.
    pub corners: [[f64; 2]; 4],
    /// How near it is.
    near: f64,
    /// The colour of the quad.
    pub fill: Colour,
    /// The colour of its edges.
    pub edge: Colour,
}

/// The directions of the picture: to the right, up, and to the eye.
struct Axes([Vector; 3]);

impl Axes {
    /// The axes of a view; seen from straight above or below, y is up.
    fn of(from: Vector) -> Axes {
        let eye = unit(from).unwrap_or([0.0, 0.0, 1.0]);
        let right = unit(cross([0.0, 0.0, 1.0], eye)).unwrap_or([1.0, 0.0, 0.0]);
        Axes([right, cross(eye, right), eye])
    }

    /// A vector along the axes.
    fn along(&self, v: Vector) -> Vector {
        self.0.map(|axis| dot(axis, v))
    }
}

/// The share of the side that is left free at each edge of the picture.
const MARGIN: f64 = 0.04;

/// Where the light comes from, along the axes.
const LIGHT: Vector = [-0.35, 0.55, 0.76];

/// A colour in the light that falls on a face of this normal, along the axes.
fn lit(colour: Colour, normal: Vector) -> Colour {
    let light = 0.55 + 0.45 * dot(normal, LIGHT).max(0.0);
    darker(colour, light)
}

/// A part of a colour.
fn darker(colour: Colour, part: f64) -> Colour {
    colour.map(|x| (f64::from(x) * part).round().min(255.0) as u8)
}

/// The faces of a sheet that face the eye, the farthest first. What cannot be drawn, as a corner that is not there or
/// not finite, is left out.
pub fn faces(sheet: &Sheet, view: &View) -> Vec<Face> {
    let axes = Axes::of(view.from);
    let points: Vec<Vector> = sheet.points.iter().map(|&p| axes.along(p)).collect();
    let mut faces: Vec<Face> =
        sheet.quads.iter().zip(&sheet.labels).filter_map(|(quad, &label)| face(&points, quad, label)).collect();
    fit(&mut faces, view.size as f64);
    faces.sort_by(|a, b| a.near.total_cmp(&b.near));
    faces
}

/// The face of a quad, if it can be seen; its corners in the sheet's own measure.
fn face(points: &[Vector], quad: &[u32; 4], label: u8) -> Option<Face> {
    let corner = |k: usize| points.get(quad[k] as usize).copied().filter(|p| p.iter().all(|x| x.abs() < 1e100));
    let corners = [corner(0)?, corner(1)?, corner(2)?, corner(3)?];
    let normal = unit(cross(sub(corners[2], corners[0]), sub(corners[3], corners[1])))?;
    let fill = lit(labels::colour(label), normal);
    let near = corners.iter().map(|p| p[2]).sum();
    let corners = corners.map(|[x, y, _]| [x, y]);
    (normal[2] > 0.0).then(|| Face { corners, near, fill, edge: darker(fill, 0.6) })
}

/// Moves and stretches the faces so that they fill a square of this side.
fn fit(faces: &mut [Face], side: f64) {
    let (mut low, mut high) = ([f64::INFINITY; 2], [f64::NEG_INFINITY; 2]);
    for corner in faces.iter().flat_map(|face| face.corners) {
        for i in 0..2 {
            (low[i], high[i]) = (low[i].min(corner[i]), high[i].max(corner[i]));
        }
    }
    let extent = (high[0] - low[0]).max(high[1] - low[1]);
    let scale = if extent > 0.0 { side * (1.0 - 2.0 * MARGIN) / extent } else { 1.0 };
    let middle = [(low[0] + high[0]) / 2.0, (low[1] + high[1]) / 2.0];
    for face in faces {
        face.corners =
            face.corners.map(|[x, y]| [side / 2.0 + (x - middle[0]) * scale, side / 2.0 - (y - middle[1]) * scale]);
    }
}

#[cfg(test)]
mod tests {
    use super::*;

    /// Two squares of the x-y plane, the second above the first, both facing up.
    fn squares() -> Sheet {
        let square = |z: f64| [[0.0, 0.0, z], [1.0, 0.0, z], [1.0, 1.0, z], [0.0, 1.0, z]];
        Sheet {
            points: [square(1.0), square(0.0)].concat(),
            quads: vec![[0, 1, 2, 3], [4, 5, 6, 7]],
            labels: vec![0, 1],
        }
    }

    const ABOVE: View = View { from: [0.0, 0.0, 1.0], size: 100 };

    #[test]
    fn the_nearest_is_drawn_last() {
        let faces = faces(&squares(), &ABOVE);
        let fills: Vec<Colour> = faces.iter().map(|face| face.fill).collect();
        assert_eq!(fills, [1, 0].map(|label| lit(labels::colour(label), [0.0, 0.0, 1.0])));
    }

    #[test]
    fn the_sheet_fills_the_picture() {
        let face = &faces(&squares(), &ABOVE)[0];
        assert_eq!(face.corners, [[4.0, 96.0], [96.0, 96.0], [96.0, 4.0], [4.0, 4.0]]);
    }

    #[test]
    fn what_faces_away_is_not_seen() {
        assert_eq!(faces(&squares(), &View { from: [0.0, 0.0, -1.0], size: 100 }), []);
    }

    #[test]
    fn what_cannot_be_drawn_is_left_out() {
        let mut sheet = squares();
        sheet.points[0][0] = f64::NAN;
        sheet.quads[1][2] = 99;
        assert_eq!(faces(&sheet, &ABOVE), []);
        sheet.points[0][0] = 1e300;
        assert_eq!(faces(&sheet, &ABOVE), []);
    }
}
