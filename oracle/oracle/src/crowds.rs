//! Sheets with points that most of their quads share: a swap there stores a valence as large as any can be.
use crate::bands::{self, UNIT};
use crate::call::Call;
use crate::operation::Operation;
use crate::quads::QuadMesh;
use crate::random::Random;
use crate::{Point, drawn, sheets};

/// Six points on the high z face of the unit box: with the edge from 0 to 1 they are two quads, with the diagonal from
/// 2 to 3 two squares.
const HEXAGON: [Point; 6] =
    [[0.0, 0.0, 1.0], [1.0, 0.5, 1.0], [0.5, 0.0, 1.0], [0.5, 0.5, 1.0], [1.0, 0.0, 1.0], [0.0, 0.5, 1.0]];

/// So many quads, two or more: two along the edge from 0 to 1, and the others across the points 0, 2, 1 and 4. Once the
/// diagonal from 2 to 3 has taken the place of that edge, all of them are at the point 2.
pub fn crowded(quads: usize) -> QuadMesh {
    let mut all = vec![[0, 2, 1, 4]; quads];
    all[..2].copy_from_slice(&[[0, 1, 3, 5], [1, 0, 2, 4]]);
    QuadMesh { points: HEXAGON.to_vec(), quads: all, labels: vec![7; quads] }
}

/// So many quads that all are the same one, no edge of which has two quads.
pub fn stacked(quads: usize) -> QuadMesh {
    QuadMesh { points: HEXAGON[..4].to_vec(), quads: vec![[0, 1, 2, 3]; quads], labels: vec![7; quads] }
}

/// A call with so many passes in the unit box.
pub fn at(operation: Operation, argument: u64, sheet: QuadMesh) -> Call {
    Call { operation, argument, band: UNIT, sheet }
}

/// The numbers below n in a random order.
fn shuffled(r: &mut Random, n: usize) -> Vec<usize> {
    let mut order: Vec<usize> = (0..n).collect();
    (1..n).for_each(|i| order.swap(i, r.below(i + 1)));
    order
}

/// The same sheet with its points and its quads in another order, each quad read from another corner on.
fn reordered(r: &mut Random, sheet: &QuadMesh) -> QuadMesh {
    let (number, place) = (shuffled(r, sheet.points.len()), shuffled(r, sheet.quads.len()));
    let mut points = sheet.points.clone();
    number.iter().zip(&sheet.points).for_each(|(&to, &point)| points[to] = point);
    let quads = place.iter().map(|&from| {
        let turn = r.below(4);
        [0, 1, 2, 3].map(|k| number[sheet.quads[from][(turn + k) % 4]])
    });
    QuadMesh { points, quads: quads.collect(), labels: place.iter().map(|&from| sheet.labels[from]).collect() }
}

/// Puts quads of four different points in, up to three of them, and moves some points along the face.
fn disturb(r: &mut Random, sheet: &mut QuadMesh) {
    for _ in 0..r.below(4) {
        let order = shuffled(r, sheet.points.len());
        sheet.quads.push([order[0], order[1], order[2], order[3]]);
        sheet.labels.push(sheet.labels[0]);
    }
    for point in &mut sheet.points {
        if r.one_in(8) {
            (point[0], point[1]) = (point[0] + r.between(-0.1, 0.1), point[1] + r.between(-0.1, 0.1));
        }
    }
}

/// A sheet of which one point or more has many quads: crowded, two poles, a fan or a wheel.
fn any_crowd(r: &mut Random) -> QuadMesh {
    let many = 3 + r.below(60);
    let mut sheet = match r.below(8) {
        0 => sheets::poles(many),
        1 => sheets::fan(many),
        2 => sheets::wheel(many / 2),
        3 => stacked(many),
        _ => crowded(many),
    };
    if r.one_in(2) {
        disturb(r, &mut sheet);
    }
    if r.one_in(2) { reordered(r, &sheet) } else { sheet }
}

/// A call on such a sheet, with up to three passes or many; one in four has a damage or two, one in six any band.
pub fn call(r: &mut Random, operation: Operation) -> Call {
    let mut sheet = any_crowd(r);
    if r.one_in(4) {
        (0..1 + r.below(2)).for_each(|_| sheets::damage(r, &mut sheet));
    }
    let band = match r.below(6) {
        0 => bands::any_band(r),
        1 => drawn::band(r),
        _ => UNIT,
    };
    Call { operation, argument: r.pick(&[0, 1, 1, 2, 3, 1000]), band, sheet }
}

#[cfg(test)]
mod tests {
    use super::*;

    #[test]
    fn all_quads_but_one_are_at_a_point() {
        for n in [2, 3, 9] {
            let QuadMesh { quads, labels, .. } = crowded(n);
            let at = |point: usize| quads.iter().filter(|quad| quad.contains(&point)).count();
            assert_eq!(([0, 1, 2, 3, 4, 5].map(at), labels.len()), ([n, n, n - 1, 1, n - 1, 1], n));
        }
    }

    #[test]
    fn another_order_is_the_same_sheet() {
        let mut r = Random::new(1);
        let places = |sheet: &QuadMesh| {
            let mut all: Vec<Vec<String>> = sheet
                .quads
                .iter()
                .map(|quad| {
                    let mut corners = quad.map(|corner| format!("{:?}", sheet.points[corner])).to_vec();
                    corners.sort();
                    corners
                })
                .collect();
            all.sort();
            all
        };
        let sheet = crowded(12);
        let other = reordered(&mut r, &sheet);
        assert!(places(&other) == places(&sheet) && other.quads != sheet.quads && other.labels == sheet.labels);
    }

    #[test]
    fn calls_are_of_every_kind() {
        let mut r = Random::new(2);
        let calls: Vec<Call> = (0..2000).map(|_| call(&mut r, Operation::Regularize)).collect();
        let accepted = calls.iter().filter(|call| crate::inner::constraints(&call.sheet, &call.band.band()).is_ok());
        let accepted = accepted.count();
        assert!((900..1700).contains(&accepted), "{accepted}");
        assert!([0, 1, 2, 3, 1000].iter().all(|&passes| calls.iter().any(|call| call.argument == passes)));
    }
}
