//! Random calls of an operation.
use crate::call::{Call, lone};
use crate::operation::Operation;
use crate::random::Random;
use crate::{bands, drawn, floats, levels, sheets, summed};

/// A number to take the root of: hostile, or a square or nearly.
pub fn radicand(r: &mut Random) -> f64 {
    match r.below(4) {
        0 => {
            let root = f64::from(floats::finite(r) as f32);
            root * root
        }
        1 => {
            let root = r.between(0.0, 4.0);
            root * root
        }
        _ => floats::hostile(r),
    }
}

/// A call at a point of a band, whose levels are finite.
fn at_point(r: &mut Random, operation: Operation) -> Call {
    let valid = operation == Operation::Project;
    let band = if valid { bands::valid_band(r) } else { bands::any_band(r) };
    let point = bands::point(r, &band);
    let argument = match operation {
        Operation::Project => u64::from(bands::mask(r)),
        Operation::Normal => r.below(8) as u64,
        _ => 0,
    };
    Call { operation, argument, band: levels::finite(band), sheet: lone(point) }
}

/// A call on a sheet, its argument a number of passes.
fn on_sheet(r: &mut Random, operation: Operation) -> Call {
    let band = if r.one_in(6) { bands::any_band(r) } else { bands::band(r) };
    Call { operation, argument: r.below(4) as u64, band, sheet: sheets::any(r) }
}

/// A call on a sheet, one time in four a drawn one.
fn on_any_sheet(r: &mut Random, operation: Operation) -> Call {
    let call = on_sheet(r, operation);
    if !r.one_in(4) {
        return call;
    }
    let (band, sheet) = drawn::sheet(r);
    Call { band, sheet, ..call }
}

/// A call of the operation.
pub fn call(r: &mut Random, operation: Operation) -> Call {
    match operation {
        Operation::Sqrt => {
            let x = radicand(r);
            Call { operation, argument: 0, band: bands::UNIT, sheet: lone([x, 0.0, 0.0]) }
        }
        Operation::Project | Operation::Value | Operation::Gradient | Operation::Normal => at_point(r, operation),
        Operation::Validate => {
            let band = if r.one_in(2) { bands::hostile_band(r) } else { bands::any_band(r) };
            Call { operation, argument: 0, band, sheet: sheets::empty() }
        }
        Operation::Extract => {
            Call { operation, argument: drawn::cells(r), band: drawn::any_band(r), sheet: sheets::empty() }
        }
        Operation::Constraints => Call { argument: 0, ..on_sheet(r, operation) },
        Operation::Refine => on_sheet(r, operation),
        Operation::Save => summed::saving(r),
        Operation::Open => summed::opening(r),
        Operation::Sum => summed::summing(r),
        _ => on_any_sheet(r, operation),
    }
}

#[cfg(test)]
mod tests {
    use super::*;
    use crate::call::expected;
    use std::collections::BTreeSet;

    /// The numbers with which an operation answers 4,000 random calls.
    fn numbers(operation: Operation) -> BTreeSet<u8> {
        let mut r = Random::new(1);
        (0..4000).map(|_| expected(&call(&mut r, operation)).number).collect()
    }

    #[test]
    fn the_tests_of_a_sheet_are_all_met() {
        assert_eq!(numbers(Operation::Constraints), BTreeSet::from([0, 1, 5, 6, 7]));
    }

    #[test]
    fn operations_meet_their_refusals() {
        assert_eq!(numbers(Operation::Subdivide), BTreeSet::from([0, 1, 5, 6, 7, 8, 9]));
        assert_eq!(numbers(Operation::Quality), BTreeSet::from([0, 1, 5, 6, 7, 11]));
        assert_eq!(numbers(Operation::Coarsen), BTreeSet::from([0, 1, 5, 6, 7]));
        assert_eq!(numbers(Operation::Corners), BTreeSet::from([0, 1, 5, 6, 7]));
        assert_eq!(numbers(Operation::Page), BTreeSet::from([0, 1, 5, 6, 7, 11]));
        assert_eq!(numbers(Operation::Save), BTreeSet::from([0, 13]));
        assert_eq!(numbers(Operation::Open), BTreeSet::from([0, 13, 14, 17]));
        assert_eq!(numbers(Operation::Sum), BTreeSet::from([0, 14]));
    }

    #[test]
    fn swaps_and_merges_are_made() {
        for operation in [Operation::Regularize, Operation::ImproveLayout, Operation::Coarsen] {
            let mut r = Random::new(4);
            let counts: Vec<_> = (0..2000).map(|_| expected(&call(&mut r, operation)).count).collect();
            assert!(counts.iter().filter(|&&count| count > 0).count() > 100);
            assert!(counts.iter().any(|&count| count > 9));
        }
    }

    #[test]
    fn projections_are_taken_and_refused() {
        assert_eq!(numbers(Operation::Project), BTreeSet::from([0, 9]));
    }

    #[test]
    fn bands_are_taken_and_refused() {
        assert_eq!(numbers(Operation::Validate), BTreeSet::from([0, 1]));
    }

    #[test]
    fn points_and_roots_meet_every_kind_of_float() {
        use std::num::FpCategory::*;
        let mut r = Random::new(2);
        for operation in [Operation::Sqrt, Operation::Value] {
            let kinds: Vec<_> = (0..4000).map(|_| call(&mut r, operation).sheet.points[0][0].classify()).collect();
            assert!([Nan, Infinite, Zero, Subnormal, Normal].iter().all(|kind| kinds.contains(kind)));
        }
    }

    #[test]
    fn sheets_meet_every_damage() {
        let mut r = Random::new(3);
        let sheets: Vec<_> = (0..4000).map(|_| call(&mut r, Operation::Constraints).sheet).collect();
        let twice = |q: &[usize; 4]| (0..4).any(|i| (0..i).any(|j| q[i] == q[j]));
        assert!(sheets.iter().any(|s| s.points.is_empty()));
        assert!(sheets.iter().any(|s| s.quads.is_empty() && s.labels.is_empty()));
        assert!(sheets.iter().any(|s| s.quads.len() != s.labels.len()));
        assert!(sheets.iter().any(|s| s.quads.iter().any(twice)));
        assert!(sheets.iter().any(|s| s.labels.iter().any(|&l| l > 7)));
        assert!(sheets.iter().any(|s| s.quads.iter().flatten().any(|&v| v == s.points.len())));
        assert!(sheets.iter().any(|s| s.points.iter().flatten().any(|x| x.is_nan())));
        assert!(sheets.iter().any(|s| s.quads.iter().filter(|q| q.contains(&0)).count() > 12));
    }
}
