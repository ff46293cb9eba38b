//! Random fields, bands and points, good and damaged.
use crate::Point;
use crate::field::{BandNumbers, Field};
use crate::random::Random;
use crate::{floats, inner, levels};

/// The unit box with a ball whose shell lies in it.
pub const UNIT: BandNumbers =
    BandNumbers { field: Field::Ball([0.5, 0.5, 0.5, 0.0]), bounds: [[0.0; 3], [1.0; 3]], levels: [0.04, 0.16] };

/// A field of ordinary numbers.
pub fn field(r: &mut Random) -> Field {
    let mut half = || r.between(-0.5, 0.5);
    let few = [half(), half(), half(), half()];
    match r.below(3) {
        0 => Field::Plane([4.0 * few[0], 4.0 * few[1], 4.0 * few[2], few[3]]),
        1 => Field::Ball(few),
        _ => Field::Quadric(std::array::from_fn(|_| r.between(-2.0, 2.0))),
    }
}

/// A field of which some numbers are hostile.
pub fn hostile_field(r: &mut Random) -> Field {
    let good = field(r);
    let share = r.pick(&[1, 2, 8]);
    let numbers = good.numbers().map(|x| if r.one_in(share) { floats::hostile(r) } else { x });
    Field::of(good.kind(), numbers).unwrap_or(good)
}

/// A band of ordinary numbers.
pub fn band(r: &mut Random) -> BandNumbers {
    let low = std::array::from_fn(|_| r.between(-1.5, -0.3));
    let high = std::array::from_fn(|_| r.between(0.3, 1.5));
    let lower = r.between(-1.0, 1.0);
    let upper = lower + r.between(0.05, 1.0);
    BandNumbers { field: field(r), bounds: [low, high], levels: [lower, upper] }
}

/// A box of any size, thick or flat.
fn any_box(r: &mut Random) -> [Point; 2] {
    let scale = 2f64.powi(r.below(2000) as i32 - 1000);
    let low: Point = std::array::from_fn(|_| scale * r.between(-1.0, 1.0));
    let high = low.map(|x| x + scale * 2f64.powi(-(r.below(60) as i32)));
    [low, high]
}

/// A band with something wrong or extreme.
pub fn hostile_band(r: &mut Random) -> BandNumbers {
    let mut b = band(r);
    match r.below(8) {
        0 => b.levels[r.below(2)] = floats::hostile(r),
        1 => b.bounds[r.below(2)][r.below(3)] = floats::hostile(r),
        2 => b.levels[0] = r.pick(&[f64::NEG_INFINITY, b.levels[1], f64::MIN]),
        3 => b.bounds.swap(0, 1),
        4 => b.bounds = any_box(r),
        5 => b.bounds[1] = b.bounds[0].map(|x| f64::from_bits(x.to_bits().wrapping_add(r.below(4) as u64))),
        6 => b.bounds = [[0.0; 3], [0; 3].map(|_| floats::subnormal(r))],
        _ => b.bounds = [[0; 3].map(|_| floats::hostile(r)), [0; 3].map(|_| floats::hostile(r))],
    }
    b
}

/// A band with finite levels that `validate` accepts, ordinary or extreme, its field good or hostile. The least float
/// stands for a lower level of minus infinity; in place of a band with another level that is not finite an ordinary
/// one is drawn.
pub fn valid_band(r: &mut Random) -> BandNumbers {
    let mut b = if r.one_in(2) { band(r) } else { hostile_band(r) };
    if b.levels[0] == f64::NEG_INFINITY {
        b.levels[0] = f64::MIN;
    }
    if !levels::are_finite(&b) || inner::validate(&b.band()).is_err() {
        b = band(r);
    }
    if r.one_in(8) {
        b.field = hostile_field(r);
    }
    b
}

/// Any band at all.
pub fn any_band(r: &mut Random) -> BandNumbers {
    let mut b = if r.one_in(3) { hostile_band(r) } else { band(r) };
    if r.one_in(4) {
        b.field = hostile_field(r);
    }
    b
}

/// A point in a band's box, at it, beside it, or anywhere.
pub fn point(r: &mut Random, b: &BandNumbers) -> Point {
    let [low, high] = b.bounds;
    match r.below(8) {
        0 => std::array::from_fn(|_| floats::hostile(r)),
        1 => std::array::from_fn(|i| b.bounds[r.below(2)][i]),
        2 => {
            let mut p: Point = std::array::from_fn(|i| r.between(low[i], high[i]));
            p[r.below(3)] = floats::hostile(r);
            p
        }
        3 => std::array::from_fn(|i| r.between(low[i], high[i]) * 2.0),
        _ => std::array::from_fn(|i| r.between(low[i], high[i])),
    }
}

/// A mask: any byte, or one that a point of an accepted sheet can have.
pub fn mask(r: &mut Random) -> u8 {
    if r.one_in(3) {
        return r.bits() as u8;
    }
    let sides = |r: &mut Random| r.pick(&[0, 0, 0, 1, 2]);
    let level = r.pick(&[0, 1, 1, 2, 2]);
    (0..3).fold(level, |mask, axis| mask | sides(r) << (2 + 2 * axis))
}
