//! What demand 3 says of a closed sheet, looked at while lists of calls run.
use crate::library;
use oracle::call::{Call, TIGHT};
use oracle::field::{BandNumbers, Field};
use oracle::operation::Operation;
use oracle::quads::QuadMesh;
use std::collections::BTreeSet;

/// The place of the bad links among the words of `quality`.
const BAD_LINKS: usize = 5;

/// A band with which `quality` accepts every accepted sheet: the normals of its field have the length 1.
const PLAIN: BandNumbers =
    BandNumbers { field: Field::Plane([1.0, 0.0, 0.0, 0.0]), bounds: [[0.0; 3], [1.0; 3]], levels: [0.0, 1.0] };

/// What calls keep of a closed sheet: points minus edges plus quads, and the sum of (quads at a point minus 4) squared.
#[derive(Clone, Copy, Debug)]
pub struct Claim {
    euler: i64,
    squared: u64,
}

/// Whether `quality` says that every edge has two quads that run opposite ways and that the quads of each point are
/// one ring: tight, and no bad link, which tight says too.
fn is_closed(sheet: &QuadMesh) -> bool {
    let call = Call { operation: Operation::Quality, argument: 0, band: PLAIN, sheet: sheet.clone() };
    library::answer(&call)
        .is_some_and(|answer| answer.number == 0 && answer.flags & TIGHT != 0 && answer.words[BAD_LINKS] == 0)
}

/// How many edges a sheet has.
fn edges(sheet: &QuadMesh) -> usize {
    let pairs = sheet.quads.iter().flat_map(|q| (0..4).map(|k| (q[k], q[(k + 1) % 4])));
    pairs.map(|(a, b)| (a.min(b), a.max(b))).collect::<BTreeSet<_>>().len()
}

/// The sum of (quads at a point minus 4) squared.
fn squared(sheet: &QuadMesh) -> u64 {
    let mut quads = vec![0u64; sheet.points.len()];
    sheet.quads.iter().flatten().for_each(|&v| quads[v] += 1);
    quads.iter().map(|&n| n.abs_diff(4).pow(2)).sum()
}

impl Claim {
    /// The claim of a sheet; none if it is not closed.
    pub fn of(sheet: &QuadMesh) -> Option<Claim> {
        is_closed(sheet).then(|| Claim {
            euler: sheet.points.len() as i64 - edges(sheet) as i64 + sheet.quads.len() as i64,
            squared: squared(sheet),
        })
    }

    /// Whether a call that made so many swaps of `regularize` has led to a sheet of this claim.
    pub fn leads_to(self, after: Option<Claim>, swaps: u64) -> bool {
        after.is_some_and(|after| after.euler == self.euler && after.squared + 2 * swaps <= self.squared)
    }

    /// Whether so many passes of `regularize` leave no swap.
    pub fn is_settled_by(self, passes: u64) -> bool {
        self.squared < passes.saturating_mul(2)
    }
}

#[cfg(test)]
mod tests {
    use super::*;
    use oracle::sheets;

    /// The claim of a sheet as its two numbers.
    fn numbers(sheet: &QuadMesh) -> Option<(i64, u64)> {
        Claim::of(sheet).map(|claim| (claim.euler, claim.squared))
    }

    #[test]
    fn closed_sheets_have_their_numbers() {
        assert_eq!(numbers(&sheets::cube()), Some((2, 8)));
        assert_eq!(numbers(&sheets::pillow()), Some((2, 16)));
        assert_eq!(numbers(&sheets::torus(3, 3)), Some((0, 0)));
    }

    #[test]
    fn other_sheets_have_none() {
        assert_eq!(numbers(&sheets::fan(6)), None);
        assert_eq!(numbers(&sheets::pillows()), None);
        assert_eq!(numbers(&sheets::cubes()), None);
        assert_eq!(numbers(&sheets::empty()), None);
    }

    #[test]
    fn a_claim_is_kept_or_not() {
        let claim = |euler, squared| Claim { euler, squared };
        assert!(claim(2, 8).leads_to(Some(claim(2, 8)), 0));
        assert!(claim(2, 8).leads_to(Some(claim(2, 4)), 2));
        assert!(!claim(2, 8).leads_to(Some(claim(2, 5)), 2));
        assert!(!claim(2, 8).leads_to(Some(claim(0, 8)), 0));
        assert!(!claim(2, 8).leads_to(None, 0));
        assert!(claim(2, 8).is_settled_by(5) && !claim(2, 8).is_settled_by(4));
    }
}
