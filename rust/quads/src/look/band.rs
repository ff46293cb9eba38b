//! What is wrong with a band.
use super::arithmetic::length;
use crate::band::{Band, Field};
use crate::cause::Cause;
use crate::label::Label;

/// The first of a band's levels and bounds that is wrong where both levels are to be finite.
pub fn fault(band: &Band) -> Option<Cause> {
    levels(band).or_else(|| extent(band))
}

/// The first of a band's levels and bounds that is wrong where a sheet is measured.
pub fn measured_fault(band: &Band) -> Option<Cause> {
    measured_levels(band).or_else(|| extent(band))
}

/// What is wrong with levels that are both to be finite.
fn levels(&Band { lower, upper, .. }: &Band) -> Option<Cause> {
    if !lower.is_finite() {
        return Some(Cause::Level { level: Label::Lower, value: lower });
    }
    if !upper.is_finite() {
        return Some(Cause::Level { level: Label::Upper, value: upper });
    }
    (lower >= upper).then_some(Cause::Levels { lower, upper })
}

/// What is wrong with the levels where a sheet is measured. The lower one may be minus infinity.
fn measured_levels(&Band { lower, upper, .. }: &Band) -> Option<Cause> {
    if !lower.is_finite() && lower != f64::NEG_INFINITY {
        return Some(Cause::Level { level: Label::Lower, value: lower });
    }
    if !upper.is_finite() {
        return Some(Cause::Level { level: Label::Upper, value: upper });
    }
    (lower >= upper).then_some(Cause::Levels { lower, upper })
}

/// What is wrong with the box.
fn extent(band: &Band) -> Option<Cause> {
    (0..3).find_map(|axis| bounds(band, axis)).or_else(|| diagonal(band))
}

/// What is wrong with the bounds of an axis.
fn bounds(band: &Band, axis: usize) -> Option<Cause> {
    let (face, at) = (Label::ALL[2 + 2 * axis], [band.low[axis], band.high[axis]]);
    let bound = [face, face.opposite()].into_iter().zip(at).find(|(_, value)| !value.is_finite());
    if let Some((face, value)) = bound {
        return Some(Cause::Bound { face, value });
    }
    (at[0] >= at[1]).then_some(Cause::Bounds { face, at })
}

/// A diagonal that is 0 or infinite.
fn diagonal(band: &Band) -> Option<Cause> {
    let length = length(band);
    (length <= 0.0 || !length.is_finite()).then_some(Cause::Diagonal(length))
}

/// The first of a field's numbers that is not finite: then the field is finite nowhere.
pub fn number(field: &Field) -> Option<Cause> {
    let numbers = names(field).iter().zip(field.numbers());
    let mut wrong = numbers.filter(|(_, value)| !value.is_finite());
    wrong.next().map(|(&name, value)| Cause::Number { name, value })
}

/// The names of a field's numbers.
fn names(field: &Field) -> &'static [&'static str] {
    match field {
        Field::Plane { .. } => &["a", "b", "c", "d"],
        Field::Ball { .. } => &["cx", "cy", "cz", "r"],
        Field::Quadric(_) => &["k0", "k1", "k2", "k3", "k4", "k5", "k6", "k7", "k8", "k9"],
    }
}

#[cfg(test)]
mod tests {
    use super::*;

    /// A band of the unit box between these levels.
    fn between(lower: f64, upper: f64) -> Band {
        let field = Field::Plane { a: 0.0, b: 0.0, c: 1.0, d: 0.0 };
        Band { field, low: [0.0; 3], high: [1.0; 3], lower, upper }
    }

    /// A level that is told.
    fn level(level: Label, value: f64) -> Option<Cause> {
        Some(Cause::Level { level, value })
    }

    #[test]
    fn a_lower_level_of_minus_infinity_is_a_fault_but_where_a_sheet_is_measured() {
        let band = between(f64::NEG_INFINITY, 1.0);
        assert_eq!((fault(&band), measured_fault(&band)), (level(Label::Lower, f64::NEG_INFINITY), None));
        let flat = Band { high: [1.0, 0.0, 1.0], ..band };
        let bounds = Some(Cause::Bounds { face: Label::LowY, at: [0.0; 2] });
        assert_eq!((fault(&flat), measured_fault(&flat)), (level(Label::Lower, f64::NEG_INFINITY), bounds));
    }

    #[test]
    fn every_other_level_is_judged_alike() {
        let same = |lower, upper| {
            let band = between(lower, upper);
            assert_eq!(format!("{:?}", fault(&band)), format!("{:?}", measured_fault(&band)));
            fault(&band)
        };
        assert_eq!((same(0.0, 1.0), same(f64::MIN, f64::MAX)), (None, None));
        assert_eq!(same(f64::INFINITY, 1.0), level(Label::Lower, f64::INFINITY));
        assert!(matches!(same(f64::NAN, 1.0), Some(Cause::Level { level: Label::Lower, .. })));
        for upper in [f64::INFINITY, f64::NEG_INFINITY] {
            assert_eq!(same(0.0, upper), level(Label::Upper, upper));
        }
        assert_eq!(same(1.0, 1.0), Some(Cause::Levels { lower: 1.0, upper: 1.0 }));
    }
}
