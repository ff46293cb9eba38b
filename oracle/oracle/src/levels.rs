//! Levels that are not finite. Point 12 of document 02 has the original asked with finite levels only, except for what
//! measures a sheet; what another operation answers to a level that is not finite is told here, by a rule that shares
//! nothing with the library and its Rust crate.
use crate::call::{Answer, Call};
use crate::field::BandNumbers;
use crate::operation::Operation;
use crate::random::Random;

/// The refusal of a band.
const BOX: u8 = 1;

/// Whether both levels of a band are finite.
pub fn are_finite(band: &BandNumbers) -> bool {
    band.levels.iter().all(|level| level.is_finite())
}

/// Whether a call tests a band that must have two finite levels: `coarsen` with a pass or more, and of what measures,
/// opens, saves or looks at a point nothing.
fn wants_finite(call: &Call) -> bool {
    match call.operation {
        Operation::Extract | Operation::Subdivide | Operation::Rows => true,
        Operation::Regularize | Operation::ImproveLayout => true,
        Operation::Constraints | Operation::Validate => true,
        Operation::Coarsen => call.argument > 0,
        _ => false,
    }
}

/// What is expected of a call with a level that is not finite; none where that is asked of the original: where both are
/// finite, where no level is looked at, and where a sheet is measured.
pub fn judged(call: &Call) -> Option<Answer> {
    if are_finite(&call.band) {
        return None;
    }
    if wants_finite(call) {
        return Some(Answer::refused(BOX));
    }
    (call.operation == Operation::Coarsen).then(|| Answer::sheet(0, &call.sheet))
}

/// The band with finite levels, for a call at a point, which tests none: in place of an infinite one the largest float
/// of its sign, in place of a NaN zero. It takes no random number.
pub fn finite(band: BandNumbers) -> BandNumbers {
    let near = |level: f64| if level.is_nan() { 0.0 } else { level.clamp(f64::MIN, f64::MAX) };
    BandNumbers { levels: band.levels.map(near), ..band }
}

/// A NaN, quiet or signalling, of either sign.
fn nan(r: &mut Random) -> f64 {
    let bits = [0x7ff8_0000_0000_0000, 0xfff8_0000_0000_0000, 0x7ff0_0000_0000_0001, 0xfff7_ffff_ffff_ffff];
    f64::from_bits(r.pick(&bits))
}

/// The band with a level that is not finite: three times in four a lower one of minus infinity, else a lower one that
/// is infinite or a NaN, or an upper one.
pub fn spoiled(r: &mut Random, band: BandNumbers) -> BandNumbers {
    let [lower, upper] = band.levels;
    let levels = match r.below(16) {
        0..=11 => [f64::NEG_INFINITY, upper],
        12 => [nan(r), upper],
        13 => [f64::INFINITY, upper],
        14 => [r.pick(&[lower, f64::NEG_INFINITY]), nan(r)],
        _ => [r.pick(&[lower, f64::NEG_INFINITY]), r.pick(&[f64::INFINITY, f64::NEG_INFINITY])],
    };
    BandNumbers { levels, ..band }
}

/// What keeps the random numbers of these levels apart from those of calls of the same seed.
const APART: u64 = 0x6c65_7665_6c73;

/// One call in so many that measures a sheet has a lower level of minus infinity, beside those that draw one by chance.
const LOWERED: usize = 12;

/// Gives calls that measure a sheet a lower level of minus infinity, some of them. It has random numbers of its own, so
/// that the calls themselves are drawn as they would be without it.
pub struct Lowering(Random);

impl Lowering {
    /// That of a seed.
    pub fn new(seed: u64) -> Lowering {
        Lowering(Random::new(seed ^ APART))
    }

    /// A call as it is, or with such a level.
    pub fn change(&mut self, call: Call) -> Call {
        if !call.operation.measures() || !self.0.one_in(LOWERED) {
            return call;
        }
        let levels = [f64::NEG_INFINITY, call.band.levels[1]];
        Call { band: BandNumbers { levels, ..call.band }, ..call }
    }
}

#[cfg(test)]
mod tests {
    use super::*;
    use crate::bands::UNIT;
    use crate::call::{expected, original};
    use crate::{inner, inputs, sheets};
    use std::collections::BTreeSet;

    /// The calls that want two finite levels, with passes where they take some, and cells where they draw.
    const WANTING: [(Operation, u64); 10] = [
        (Operation::Extract, 4),
        (Operation::Subdivide, 0),
        (Operation::Rows, 0),
        (Operation::Regularize, 0),
        (Operation::Regularize, 1),
        (Operation::ImproveLayout, 0),
        (Operation::ImproveLayout, 2),
        (Operation::Coarsen, 1),
        (Operation::Constraints, 0),
        (Operation::Validate, 0),
    ];

    /// The levels that are not finite but for a lower one of minus infinity, all of which the original refuses.
    const REFUSED: [[f64; 2]; 6] = [
        [f64::NAN, 0.16],
        [f64::INFINITY, 0.16],
        [0.04, f64::INFINITY],
        [0.04, f64::NEG_INFINITY],
        [0.04, f64::NAN],
        [f64::NEG_INFINITY, f64::INFINITY],
    ];

    /// A call on the cube in the unit box, between these levels.
    fn between(levels: [f64; 2], (operation, argument): (Operation, u64)) -> Call {
        Call { operation, argument, band: BandNumbers { levels, ..UNIT }, sheet: sheets::cube() }
    }

    #[test]
    fn the_original_refuses_the_same_but_for_a_lower_level_of_minus_infinity() {
        for asked in WANTING {
            for levels in REFUSED {
                let call = between(levels, asked);
                assert_eq!(
                    (judged(&call), original(&call)),
                    (Some(Answer::refused(1)), Answer::refused(1)),
                    "{call:?}"
                );
            }
            let call = between([f64::NEG_INFINITY, 0.16], asked);
            assert_eq!(judged(&call), Some(Answer::refused(1)), "{call:?}");
            assert_eq!(original(&call).number, if call.operation == Operation::Extract { 2 } else { 0 }, "{call:?}");
        }
    }

    #[test]
    fn random_calls_differ_from_the_original_exactly_above_minus_infinity() {
        let (mut r, mut met) = (Random::new(1), [0; 2]);
        for (operation, _) in WANTING.into_iter().cycle().take(6000) {
            let call = inputs::call(&mut r, operation);
            let call = Call { band: spoiled(&mut r, call.band), argument: call.argument.max(1), ..call };
            let bottomless = call.band.levels[0] == f64::NEG_INFINITY && inner::validate(&call.band.band()).is_ok();
            assert_eq!(original(&call).number != 1, bottomless, "{call:?}");
            assert_eq!(expected(&call), Answer::refused(1), "{call:?}");
            met[usize::from(bottomless)] += 1;
        }
        assert!(met.iter().all(|&calls| calls > 1000), "{met:?}");
    }

    #[test]
    fn coarsen_without_a_pass_is_accepted_as_the_original_accepts_it() {
        let mut r = Random::new(2);
        for _ in 0..1000 {
            let call = Call { argument: 0, ..inputs::call(&mut r, Operation::Coarsen) };
            let call = Call { band: spoiled(&mut r, call.band), ..call };
            assert_eq!(judged(&call), Some(Answer::sheet(0, &call.sheet)));
            assert_eq!(judged(&call), Some(original(&call)));
        }
    }

    #[test]
    fn what_measures_refines_or_is_of_a_job_is_judged_elsewhere() {
        let judge =
            Operation::all().filter(|&operation| judged(&between([f64::NEG_INFINITY; 2], (operation, 1))).is_none());
        let expected = [1, 8, 9, 10, 11, 12, 13, 16, 17, 18, 19, 20];
        assert_eq!(judge.map(Operation::number).collect::<Vec<_>>(), expected);
        assert!(Operation::all().all(|operation| judged(&between([0.04, 0.16], (operation, 1))).is_none()));
    }

    #[test]
    fn a_call_at_a_point_has_finite_levels() {
        let levels = |levels| finite(BandNumbers { levels, ..UNIT }).levels;
        assert_eq!(levels([f64::NEG_INFINITY, 2.0]), [f64::MIN, 2.0]);
        assert_eq!(levels([-f64::NAN, f64::INFINITY]), [0.0, f64::MAX]);
        assert_eq!(levels([-0.0, 5e-324]).map(f64::to_bits), [-0.0, 5e-324].map(f64::to_bits));
        let mut r = Random::new(3);
        for operation in [Operation::Project, Operation::Value, Operation::Gradient, Operation::Normal] {
            assert!((0..4000).all(|_| are_finite(&inputs::call(&mut r, operation).band)));
        }
    }

    #[test]
    fn spoiled_levels_are_of_every_kind() {
        let (mut r, mut seen, mut bottomless) = (Random::new(4), BTreeSet::new(), 0);
        for _ in 0..4000 {
            let levels = spoiled(&mut r, UNIT).levels;
            assert!(levels.iter().any(|level| !level.is_finite()));
            bottomless += usize::from(levels == [f64::NEG_INFINITY, 0.16]);
            seen.insert(levels.map(f64::to_bits));
        }
        assert!((2800..3200).contains(&bottomless) && seen.len() == 1 + 4 + 1 + 8 + 4, "{bottomless} of {seen:?}");
    }

    #[test]
    fn one_measuring_call_in_twelve_is_lowered() {
        let (mut r, mut lowering, mut lowered) = (Random::new(5), Lowering::new(5), 0);
        for operation in [Operation::Quality, Operation::Page, Operation::Corners].into_iter().cycle().take(6000) {
            let levels = lowering.change(inputs::call(&mut r, operation)).band.levels;
            lowered += usize::from(levels[0] == f64::NEG_INFINITY);
        }
        assert!((450..600).contains(&lowered), "{lowered}");
        let call = between([0.04, 0.16], (Operation::Coarsen, 1));
        assert!((0..100).all(|_| lowering.change(call.clone()).band == call.band));
    }
}
