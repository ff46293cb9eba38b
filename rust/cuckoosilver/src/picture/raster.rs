//! Draws faces into pixels.
use super::scene::Face;
use crate::labels::Colour;

/// A pixel is the mean of this many places in each direction.
const PLACES: usize = 3;

/// Half the width of an edge, in pixels.
const EDGE: f64 = 0.5;

/// A square of places, white at first.
struct Canvas {
    side: usize,
    places: Vec<Colour>,
}

/// The pixels of a picture, row by row, with the faces drawn one over the other.
pub fn draw(faces: &[Face], side: usize) -> Vec<Colour> {
    let mut canvas = Canvas { side: side * PLACES, places: vec![[255; 3]; (side * PLACES).pow(2)] };
    for face in faces {
        canvas.draw(face);
    }
    canvas.pixels(side)
}

impl Canvas {
    /// Draws a face over what is there.
    fn draw(&mut self, face: &Face) {
        let corners = face.corners.map(|corner| corner.map(|x| x * PLACES as f64));
        let (columns, rows) = (self.span(corners.map(|c| c[0])), self.span(corners.map(|c| c[1])));
        for row in rows {
            for column in columns.clone() {
                let place = [column as f64 + 0.5, row as f64 + 0.5];
                if let Some(colour) = colour_at(place, &corners, face) {
                    self.places[row * self.side + column] = colour;
                }
            }
        }
    }

    /// The places that a range of four numbers covers, with the width of an edge.
    fn span(&self, numbers: [f64; 4]) -> std::ops::Range<usize> {
        let width = EDGE * PLACES as f64;
        let low = numbers.into_iter().fold(f64::INFINITY, f64::min) - width;
        let high = numbers.into_iter().fold(f64::NEG_INFINITY, f64::max) + width;
        (low.max(0.0) as usize)..((high.max(0.0) as usize + 1).min(self.side))
    }

    /// The pixels: each the mean of its places.
    fn pixels(&self, side: usize) -> Vec<Colour> {
        let mean = |row: usize, column: usize| {
            let mut sum = [0_u32; 3];
            for i in 0..PLACES * PLACES {
                let (r, c) = (row * PLACES + i / PLACES, column * PLACES + i % PLACES);
                for (total, part) in sum.iter_mut().zip(self.places[r * self.side + c]) {
                    *total += u32::from(part);
                }
            }
            sum.map(|total| (total / (PLACES * PLACES) as u32) as u8)
        };
        (0..side * side).map(|i| mean(i / side, i % side)).collect()
    }
}

/// The colour of a face at a place: that of its edges near to one, its own inside, none outside.
fn colour_at(place: [f64; 2], corners: &[[f64; 2]; 4], face: &Face) -> Option<Colour> {
    let width = EDGE * PLACES as f64;
    if (0..4).any(|k| distance(place, corners[k], corners[(k + 1) % 4]) < width) {
        return Some(face.edge);
    }
    let [a, b, c, d] = *corners;
    (inside(place, [a, b, c]) || inside(place, [a, c, d])).then_some(face.fill)
}

/// Twice the area of a triangle, by its sign to the left or to the right.
fn turn(a: [f64; 2], b: [f64; 2], c: [f64; 2]) -> f64 {
    (b[0] - a[0]) * (c[1] - a[1]) - (b[1] - a[1]) * (c[0] - a[0])
}

/// Whether a place is inside a triangle.
fn inside(p: [f64; 2], [a, b, c]: [[f64; 2]; 3]) -> bool {
    let turns = [turn(a, b, p), turn(b, c, p), turn(c, a, p)];
    turns.iter().all(|&t| t >= 0.0) || turns.iter().all(|&t| t <= 0.0)
}

/// The distance of a place from the line between two others.
fn distance(p: [f64; 2], a: [f64; 2], b: [f64; 2]) -> f64 {
    let (x, y) = (b[0] - a[0], b[1] - a[1]);
    let along = ((p[0] - a[0]) * x + (p[1] - a[1]) * y) / (x * x + y * y).max(1e-300);
    let t = along.clamp(0.0, 1.0);
    (p[0] - a[0] - t * x).hypot(p[1] - a[1] - t * y)
}

#[cfg(test)]
mod tests {
    use super::*;

    #[test]
    fn a_place_is_inside_or_outside() {
        let triangle = [[0.0, 0.0], [4.0, 0.0], [0.0, 4.0]];
        assert!(inside([1.0, 1.0], triangle));
        assert!(!inside([3.0, 3.0], triangle));
    }

    #[test]
    fn distances_end_at_the_ends() {
        assert_eq!(distance([2.0, 3.0], [0.0, 0.0], [4.0, 0.0]), 3.0);
        assert_eq!(distance([7.0, 4.0], [0.0, 0.0], [4.0, 0.0]), 5.0);
        assert_eq!(distance([3.0, 4.0], [0.0, 0.0], [0.0, 0.0]), 5.0);
    }

    #[test]
    fn nothing_is_white() {
        assert_eq!(draw(&[], 16), vec![[255; 3]; 256]);
    }
}
