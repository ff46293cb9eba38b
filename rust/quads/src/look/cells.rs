//! The cells of a drawing, and the labels of what crosses them.
use super::arithmetic::{add, mul};
use super::grid::{Grid, outside, triples};
use super::sheet::opposites;
use crate::band::Band;
use crate::cause::Cause;

/// A place of the grid.
type Place = [usize; 3];

/// The edges of a cell that the surface crosses: none, or the label there.
type Crossings = [Option<usize>; 12];

/// The first cell whose point would lie on both levels or on two opposite faces.
pub fn clash(band: &Band, cells: usize) -> Option<Cause> {
    let grid = Grid::new(band, cells);
    let side = grid.cells + 1;
    let inside: Vec<bool> = triples(0, side).map(|place| outside(band, grid.point(place)).0 < 0.0).collect();
    let is_inside = |[i, j, k]: Place| inside[(i * side + j) * side + k];
    let crosses = |[from, to]: [Place; 2]| is_inside(from) != is_inside(to);
    let is_crossed = |cell: &Place| (0..12).any(|edge| crosses(ends(*cell, edge)));
    triples(0, grid.cells).filter(is_crossed).find_map(|cell| {
        let crossing = |ends| crosses(ends).then(|| label(band, &grid, ends));
        let crossings = std::array::from_fn(|edge| crossing(ends(cell, edge)));
        let labels = groups(cell, &crossings)?.into_iter().find_map(opposites)?;
        Some(Cause::Cell { cell, centre: grid.centre(cell), labels })
    })
}

/// The two places of an edge of a cell: four edges along each axis.
fn ends(cell: Place, edge: usize) -> [Place; 2] {
    let (axis, mut from) = (edge / 4, cell);
    from[(axis + 1) % 3] += edge / 2 % 2;
    from[(axis + 2) % 3] += edge % 2;
    let mut to = from;
    to[axis] += 1;
    [from, to]
}

/// The label of the surface where it crosses between two places, found by halving.
fn label(band: &Band, grid: &Grid, ends: [Place; 2]) -> usize {
    let [mut from, mut to] = ends.map(|place| grid.point(place));
    let is_inside = |point| outside(band, point).0 < 0.0;
    let sign = is_inside(from);
    for _ in 0..32 {
        let middle = mul(add(from, to), 0.5);
        if is_inside(middle) == sign {
            from = middle;
        } else {
            to = middle;
        }
    }
    outside(band, mul(add(from, to), 0.5)).1
}

/// The labels of each point of a cell, a bit for each: crossings that a face joins share a point. None where a face has
/// four crossings, of which it is not plain which are joined.
fn groups(cell: Place, crossings: &Crossings) -> Option<[u8; 12]> {
    let mut groups: [usize; 12] = std::array::from_fn(|edge| edge);
    for (axis, side) in (0..3).flat_map(|axis| [(axis, 0), (axis, 1)]) {
        let on_face = |edge: &usize| ends(cell, *edge).iter().all(|place| place[axis] == cell[axis] + side);
        let joined: Vec<usize> = (0..12).filter(|&edge| crossings[edge].is_some()).filter(on_face).collect();
        match joined[..] {
            [] => {}
            [one, other] => {
                let (new, old) = (groups[one], groups[other]);
                groups.iter_mut().filter(|group| **group == old).for_each(|group| *group = new);
            }
            _ => return None,
        }
    }
    let mut masks = [0; 12];
    for (&group, label) in groups.iter().zip(crossings) {
        masks[group] |= label.map_or(0, |label| 1 << label);
    }
    Some(masks)
}
