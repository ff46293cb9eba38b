//! Closed sheets and rings, by walking: what tight means, in the words of demand 3.
use crate::quads::QuadMesh;
use std::collections::BTreeMap;

/// Whether every edge has exactly two quads that run opposite ways.
pub fn is_closed(sheet: &QuadMesh) -> bool {
    let mut edges = BTreeMap::<(usize, usize), Vec<bool>>::new();
    for quad in &sheet.quads {
        for k in 0..4 {
            let (a, b) = (quad[k], quad[(k + 1) % 4]);
            edges.entry((a.min(b), a.max(b))).or_default().push(a < b);
        }
    }
    edges.values().all(|ways| ways.len() == 2 && ways[0] != ways[1])
}

/// Whether, on a closed sheet, stepping from quad to quad over the edges at a point comes round once through all of its
/// quads.
fn is_ring(sheet: &QuadMesh, point: usize) -> bool {
    let corners = sheet.quads.iter().flat_map(|q| (0..4).map(move |k| (q[(k + 3) % 4], q[k], q[(k + 1) % 4])));
    let next: BTreeMap<_, _> =
        corners.filter(|&(_, v, _)| v == point).map(|(before, _, after)| (before, after)).collect();
    let Some((&start, &second)) = next.first_key_value() else { return false };
    let round = std::iter::successors(Some(second), |v| next.get(v).copied()).take_while(|&v| v != start);
    round.take(next.len()).count() + 1 == next.len()
}

/// Whether a sheet is closed, and the quads at each point are one ring.
pub fn is_tight(sheet: &QuadMesh) -> bool {
    is_closed(sheet) && (0..sheet.points.len()).all(|point| is_ring(sheet, point))
}

#[cfg(test)]
mod tests {
    use super::*;
    use crate::call::{TIGHT, expected};
    use crate::operation::Operation;
    use crate::random::Random;
    use crate::{inputs, sheets};

    #[test]
    fn two_quads_are_a_ring() {
        assert!(is_tight(&sheets::pillow()) && is_tight(&sheets::cube()) && is_tight(&sheets::torus(3, 4)));
    }

    #[test]
    fn a_point_of_two_rings_has_none() {
        for sheet in [sheets::pillows(), sheets::cubes()] {
            assert!(is_closed(&sheet) && !is_tight(&sheet));
            let bad = (0..sheet.points.len()).filter(|&v| !is_ring(&sheet, v)).count();
            assert_eq!(bad, 1);
        }
    }

    #[test]
    fn open_and_turned_sheets_are_not_closed() {
        let mut turned = sheets::cube();
        turned.quads[0].reverse();
        assert!(!is_closed(&turned) && !is_closed(&sheets::fan(6)));
    }

    #[test]
    fn the_originals_count_of_bad_links_and_the_walk_agree() {
        let mut r = Random::new(7);
        let (mut tight, mut pinched) = (0, 0);
        for _ in 0..6000 {
            let call = inputs::call(&mut r, Operation::Quality);
            let answer = expected(&call);
            if answer.number == 0 {
                assert_eq!(answer.flags & TIGHT != 0, is_tight(&call.sheet), "{:?}", call.sheet);
                tight += u32::from(is_tight(&call.sheet));
                pinched += u32::from(is_closed(&call.sheet) && !is_tight(&call.sheet));
            }
        }
        assert!(tight > 1000 && pinched > 100, "{tight} tight, {pinched} pinched");
    }
}
