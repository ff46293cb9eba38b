//! Random floats: ordinary, at the limits, subnormal, and any bits at all.
use crate::random::Random;

/// The floats at which rules change.
const LIMITS: [f64; 18] = [
    0.0,
    -0.0,
    1.0,
    -1.0,
    f64::INFINITY,
    f64::NEG_INFINITY,
    f64::NAN,
    f64::MAX,
    f64::MIN,
    f64::MIN_POSITIVE,
    -f64::MIN_POSITIVE,
    f64::EPSILON,
    1e-300,
    1e-162,
    1e154,
    1.3e154,
    1e170,
    1.7e308,
];

/// One of the limits, or up to two places beside it.
pub fn limit(r: &mut Random) -> f64 {
    let x = r.pick(&LIMITS);
    match r.below(4) {
        0 => f64::from_bits(x.to_bits().wrapping_add(1 + r.below(2) as u64)),
        1 => f64::from_bits(x.to_bits().wrapping_sub(1 + r.below(2) as u64)),
        _ => x,
    }
}

/// A subnormal number of either sign, every length of its digits alike.
pub fn subnormal(r: &mut Random) -> f64 {
    let digits = r.bits() >> (12 + r.below(52));
    f64::from_bits(digits | (r.bits() & (1 << 63)))
}

/// Any 64 bits.
pub fn any(r: &mut Random) -> f64 {
    f64::from_bits(r.bits())
}

/// A finite number of either sign, every exponent alike.
pub fn finite(r: &mut Random) -> f64 {
    let exponent = r.below(2047) as u64;
    f64::from_bits((r.bits() & 0x800f_ffff_ffff_ffff) | (exponent << 52))
}

/// A number that is hard on a rule.
pub fn hostile(r: &mut Random) -> f64 {
    match r.below(4) {
        0 => limit(r),
        1 => subnormal(r),
        2 => any(r),
        _ => finite(r),
    }
}
