//! Plane patches of label 0 in which one edge or one quad has corners of given numbers of quads: the starred swaps
//! and merges of document 01.
use crate::field::{BandNumbers, Field};
use crate::quads::QuadMesh;

/// How many quads a patch is wide and high.
const SIDE: usize = 6;

/// The band of all patches: its upper level is the plane z = 0.
pub const BAND: BandNumbers = BandNumbers {
    field: Field::Plane([0.0, 0.0, 1.0, 0.0]),
    bounds: [[-1.0; 3], [SIDE as f64 + 1.0; 3]],
    levels: [-1.0, 0.0],
};

/// The number of the point i across and j up.
fn at(i: usize, j: usize) -> usize {
    i * (SIDE + 1) + j
}

/// The number of the quad whose first corner that is.
fn quad(i: usize, j: usize) -> usize {
    i * SIDE + j
}

/// The patch of squares: every inner point has four quads.
pub fn squares() -> QuadMesh {
    let places = |n: usize| (0..n).flat_map(move |i| (0..n).map(move |j| (i, j)));
    QuadMesh {
        points: places(SIDE + 1).map(|(i, j)| [i as f64, j as f64, 0.0]).collect(),
        quads: places(SIDE).map(|(i, j)| [at(i, j), at(i + 1, j), at(i + 1, j + 1), at(i, j + 1)]).collect(),
        labels: vec![0; SIDE * SIDE],
    }
}

/// Takes a quad out.
fn without(sheet: &mut QuadMesh, quad: usize) {
    sheet.quads.remove(quad);
    sheet.labels.remove(quad);
}

/// Puts a quad of three new points at a point.
fn with_flap(sheet: &mut QuadMesh, point: usize) {
    let [x, y, z] = sheet.points[point];
    let n = sheet.points.len();
    sheet.points.extend([[x + 0.5, y, z], [x + 0.5, y + 0.5, z], [x, y + 0.5, z]]);
    sheet.quads.push([point, n, n + 1, n + 2]);
    sheet.labels.push(0);
}

/// An edge between two points of five quads, which would be one between two points of three if it were turned back.
pub fn turned() -> QuadMesh {
    let mut sheet = squares();
    sheet.quads[quad(2, 2)] = [at(4, 2), at(4, 3), at(3, 3), at(2, 3)];
    sheet.quads[quad(3, 2)] = [at(2, 3), at(2, 2), at(3, 2), at(4, 2)];
    sheet
}

/// The same with one quad less at the first of the two: 5 and 4 to 3 and 3.
pub fn turned_at_four() -> QuadMesh {
    let mut sheet = turned();
    without(&mut sheet, quad(1, 3));
    sheet
}

/// The same with one quad more at both of the others: 5 and 5 to 4 and 4.
pub fn turned_among_fours() -> QuadMesh {
    let mut sheet = turned();
    with_flap(&mut sheet, at(3, 3));
    with_flap(&mut sheet, at(3, 2));
    sheet
}

/// A quad whose corners have 3, 5, 3 and 5 quads: an inner point taken apart.
pub fn parted() -> QuadMesh {
    let mut sheet = squares();
    let (below, above) = (at(3, 3), sheet.points.len());
    sheet.points[below][1] -= 0.25;
    sheet.points.push([3.0, 3.25, 0.0]);
    for quad in [quad(2, 3), quad(3, 3)] {
        sheet.quads[quad] = sheet.quads[quad].map(|v| if v == below { above } else { v });
    }
    sheet.quads.push([below, at(4, 3), above, at(2, 3)]);
    sheet.labels.push(0);
    sheet
}

/// The same with one quad less at both points of five: 3, 4, 3 and 4.
pub fn parted_among_fours() -> QuadMesh {
    let mut sheet = parted();
    without(&mut sheet, quad(4, 3));
    without(&mut sheet, quad(1, 3));
    sheet
}

/// All patches.
pub fn all() -> [QuadMesh; 6] {
    [squares(), turned(), turned_at_four(), turned_among_fours(), parted(), parted_among_fours()]
}

#[cfg(test)]
mod tests {
    use super::*;
    use crate::quads::{coarsen, improve_layout, regularize};

    /// How many quads a point has.
    fn valence(sheet: &QuadMesh, point: usize) -> usize {
        sheet.quads.iter().filter(|quad| quad.contains(&point)).count()
    }

    /// The numbers of quads at the ends of the turned edge and at those of the edge before.
    fn around_the_edge(sheet: &QuadMesh) -> [usize; 4] {
        [at(2, 3), at(4, 2), at(3, 3), at(3, 2)].map(|v| valence(sheet, v))
    }

    /// The swaps of one pass of `regularize` and of `improve_layout`, and whether they turn the edge back.
    fn swaps(sheet: &QuadMesh) -> [(usize, bool); 2] {
        [regularize, improve_layout].map(|operation| {
            let mut sheet = sheet.clone();
            let count = operation(&mut sheet, &BAND.band(), 1).unwrap();
            let back = sheet.quads.iter().any(|q| (0..4).any(|k| [q[k], q[(k + 1) % 4]] == [at(3, 2), at(3, 3)]));
            (count, back)
        })
    }

    /// The merges of one pass of `coarsen`.
    fn merges(sheet: &QuadMesh) -> usize {
        coarsen(&mut sheet.clone(), &BAND.band(), 1).unwrap()
    }

    #[test]
    fn the_starred_swaps_are_made() {
        assert_eq!(around_the_edge(&turned()), [5, 5, 3, 3]);
        assert_eq!(around_the_edge(&turned_at_four()), [4, 5, 3, 3]);
        assert_eq!(around_the_edge(&turned_among_fours()), [5, 5, 4, 4]);
        assert_eq!(swaps(&squares()), [(0, true); 2]);
        assert_eq!(swaps(&turned()), [(1, true); 2]);
        assert_eq!(swaps(&turned_at_four()), [(1, true); 2]);
        assert_eq!(swaps(&turned_among_fours()), [(0, false), (1, true)]);
    }

    #[test]
    fn the_starred_merges_are_made() {
        let corners = |sheet: &QuadMesh| sheet.quads[sheet.quads.len() - 1].map(|v| valence(sheet, v));
        assert_eq!(corners(&parted()), [3, 5, 3, 5]);
        assert_eq!(corners(&parted_among_fours()), [3, 4, 3, 4]);
        assert_eq!(squares().quads[quad(2, 2)].map(|v| valence(&squares(), v)), [4; 4]);
        assert_eq!([squares(), parted(), parted_among_fours()].map(|sheet| merges(&sheet)), [0, 1, 1]);
    }
}
