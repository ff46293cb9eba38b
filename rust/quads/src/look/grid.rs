//! The grid of a drawing.
use super::arithmetic::{Point, length, value};
use crate::band::Band;
use crate::cause::Cause;

/// The grid: its places are the corners of its cells, of which one layer sticks out of the box on each side.
pub struct Grid {
    start: Point,
    step: Point,
    /// The cells along a side.
    pub cells: usize,
}

impl Grid {
    /// The grid of a drawing over the box of a band.
    pub fn new(band: &Band, cells: usize) -> Grid {
        let step: Point = std::array::from_fn(|axis| (band.high[axis] - band.low[axis]) / cells as f64);
        let start = std::array::from_fn(|axis| band.low[axis] - 0.513 * step[axis]);
        Grid { start, step, cells: cells + 2 }
    }

    /// The point at a place.
    pub fn point(&self, place: [usize; 3]) -> Point {
        std::array::from_fn(|axis| self.start[axis] + place[axis] as f64 * self.step[axis])
    }

    /// The middle of a cell.
    pub fn centre(&self, cell: [usize; 3]) -> Point {
        std::array::from_fn(|axis| self.start[axis] + (cell[axis] as f64 + 0.5) * self.step[axis])
    }
}

/// All triples of numbers from `first` to before `end`, z fastest.
pub fn triples(first: usize, end: usize) -> impl Iterator<Item = [usize; 3]> {
    (first..end).flat_map(move |i| (first..end).flat_map(move |j| (first..end).map(move |k| [i, j, k])))
}

/// How far outside the band a point is, negative inside, and the label of what it is outside of.
pub fn outside(band: &Band, point: Point) -> (f64, usize) {
    let (field, scale) = (value(&band.field, point), (band.upper - band.lower) / length(band));
    let levels = [(field - band.upper) / scale, (band.lower - field) / scale];
    let faces = (0..3).flat_map(|axis| [band.low[axis] - point[axis], point[axis] - band.high[axis]]);
    let mut most = (levels[0], 0);
    for (label, distance) in (1..).zip(levels.into_iter().skip(1).chain(faces)) {
        if distance > most.0 {
            most = (distance, label);
        }
    }
    most
}

/// The first place at which the sample is not finite.
pub fn sample(band: &Band, cells: usize) -> Option<Cause> {
    let grid = Grid::new(band, cells);
    let place = triples(0, grid.cells + 1).find(|&place| !outside(band, grid.point(place)).0.is_finite())?;
    let point = grid.point(place);
    Some(Cause::Sample { place, point, value: value(&band.field, point) })
}

/// What the field is at the places inside the box, if none of them lies in the band.
pub fn missed(band: &Band, cells: usize) -> Option<Cause> {
    let (grid, mut field) = (Grid::new(band, cells), [f64::INFINITY, f64::NEG_INFINITY]);
    for place in triples(1, cells + 1) {
        let value = value(&band.field, grid.point(place));
        if band.lower < value && value < band.upper {
            return None;
        }
        field = [field[0].min(value), field[1].max(value)];
    }
    Some(Cause::Missed { field, levels: [band.lower, band.upper] })
}
