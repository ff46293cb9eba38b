//! Bands to draw a sheet around, and sheets that the original draws, as they are or worked on.
use crate::field::{BandNumbers, Field};
use crate::quads::{self, QuadMesh};
use crate::random::Random;
use crate::{bands, floats, sheets};

/// A band whose sheet fits its box or is cut by it: a shell, a wall or a saddle.
pub fn band(r: &mut Random) -> BandNumbers {
    let c: [f64; 3] = std::array::from_fn(|_| r.between(-0.1, 0.1));
    let side = r.between(0.5, 1.1);
    let bounds = [[-side; 3], [0; 3].map(|_| side + r.between(-0.1, 0.1))];
    let inner = r.between(0.05, 0.3);
    let shell = [inner, inner + r.between(0.15, 0.5)];
    let wall = [r.between(-0.3, 0.0), r.between(0.1, 0.4)];
    match r.below(4) {
        0 | 1 => BandNumbers { field: Field::Ball([c[0], c[1], c[2], 0.0]), bounds, levels: shell },
        2 => BandNumbers { field: Field::Plane([1.0 + c[0], 2.0 * c[1], 2.0 * c[2], 0.0]), bounds, levels: wall },
        _ => {
            let k =
                [1.0, r.between(-1.0, 1.0), r.between(-1.0, 1.0), 0.0, 0.0, 0.0, c[0], c[1], r.between(-1.0, 1.0), 0.0];
            BandNumbers { field: Field::Quadric(k), bounds, levels: wall }
        }
    }
}

/// The band with its box made larger or smaller by a power of two, the field and its levels likewise.
fn scaled(r: &mut Random, b: BandNumbers) -> BandNumbers {
    let s = 2f64.powi(r.below(1060) as i32 - 540);
    let (field, level) = match b.field {
        Field::Plane([x, y, z, d]) => (Field::Plane([x, y, z, d * s]), s),
        Field::Ball([x, y, z, d]) => (Field::Ball([x * s, y * s, z * s, d * s * s]), s * s),
        Field::Quadric(k) => {
            let powers = [1.0, 1.0, 1.0, 1.0, 1.0, 1.0, s, s, s, s * s];
            (Field::Quadric(std::array::from_fn(|i| k[i] * powers[i])), s * s)
        }
    };
    BandNumbers { field, bounds: b.bounds.map(|p| p.map(|x| x * s)), levels: b.levels.map(|x| x * level) }
}

/// The band with a box that is only some floats wide along one or two axes.
fn thin(r: &mut Random, mut b: BandNumbers) -> BandNumbers {
    for _ in 0..1 + r.below(2) {
        let low = r.pick(&[0.0, 5e-324, 1e-310, 1e-300, 0.1, 1.0]);
        let axis = r.below(3);
        b.bounds[0][axis] = low;
        b.bounds[1][axis] = f64::from_bits(low.to_bits() + 1 + r.below(200) as u64);
    }
    b
}

/// A ball written out as a quadric, so near its centre that rounding alone decides what is inside.
pub fn noisy() -> BandNumbers {
    let k = [1.0, 1.0, 1.0, 0.0, 0.0, 0.0, -2.0, -2.0, -2.0, 3.0];
    BandNumbers { field: Field::Quadric(k), bounds: [[1.0; 3], [1.0 + 2e-8; 3]], levels: [0.0, 2e-15] }
}

/// A band of which a sheet is to be drawn: one that can be, and some of any size, thin, bottomless, noisy or hostile.
pub fn any_band(r: &mut Random) -> BandNumbers {
    let b = band(r);
    match r.below(16) {
        0 => BandNumbers { levels: [r.pick(&[f64::NEG_INFINITY, f64::MIN, b.levels[1]]), b.levels[1]], ..b },
        1 | 2 => scaled(r, b),
        3 => thin(r, b),
        4 => BandNumbers { levels: [0.0, floats::subnormal(r).abs()], ..noisy() },
        5 => BandNumbers { levels: [0.0, r.between(1e-15, 4e-15)], ..noisy() },
        6 => BandNumbers { field: bands::hostile_field(r), ..b },
        7 | 8 => bands::any_band(r),
        9 | 10 => bands::band(r),
        _ => b,
    }
}

/// Cells of a drawing, one in sixteen of them not allowed.
pub fn cells(r: &mut Random) -> u64 {
    match r.below(16) {
        0 => r.pick(&[0, 1, 3, 129, 130, u64::MAX]),
        1 => 9 + r.below(8) as u64,
        _ => 4 + r.below(5) as u64,
    }
}

/// One operation of the original on a sheet; a refusal leaves it.
fn worked(r: &mut Random, band: &BandNumbers, sheet: &mut QuadMesh) {
    let passes = 1 + r.below(3);
    let band = &band.band();
    match r.below(4) {
        0 => _ = quads::regularize(sheet, band, passes),
        1 => _ = quads::improve_layout(sheet, band, passes),
        2 => _ = quads::coarsen(sheet, band, passes),
        _ => {
            for p in sheet.points.iter_mut().flatten() {
                *p += r.between(-0.02, 0.02);
            }
        }
    }
}

/// A sheet as it is drawn, with its band; none where nothing can be drawn.
fn draw(r: &mut Random) -> Option<(BandNumbers, QuadMesh)> {
    let band = band(r);
    let sheet = quads::extract_candidate(&band.band(), 4 + r.below(3)).ok()?;
    Some((band, sheet))
}

/// A sheet as it is drawn, with its band; a small closed one where nothing can be drawn.
pub fn fresh(r: &mut Random) -> (BandNumbers, QuadMesh) {
    draw(r).unwrap_or_else(|| (bands::band(r), sheets::closed(r)))
}

/// A sheet of at most 64 points that is drawn around a part of a ball, with its band.
pub fn small(r: &mut Random) -> (BandNumbers, QuadMesh) {
    loop {
        let c: [f64; 3] = std::array::from_fn(|_| r.pick(&[-1.0, 0.0, 0.0, 1.0]) + r.between(-0.2, 0.2));
        let field = Field::Ball([c[0], c[1], c[2], 0.0]);
        let band = BandNumbers { field, bounds: [[-1.0; 3], [1.0; 3]], levels: [-1.0, r.between(0.2, 1.2)] };
        if let Ok(sheet) = quads::extract_candidate(&band.band(), 4)
            && sheet.points.len() <= 64
            && sheet.quads.len() <= 64
        {
            return (band, sheet);
        }
    }
}

/// A drawn sheet with its band, up to two times worked on, sometimes pinched and sometimes damaged.
pub fn sheet(r: &mut Random) -> (BandNumbers, QuadMesh) {
    let Some((band, mut sheet)) = draw(r) else {
        return (bands::band(r), sheets::closed(r));
    };
    for _ in 0..r.below(3) {
        worked(r, &band, &mut sheet);
    }
    if r.one_in(8) {
        sheets::pinch(r, &mut sheet);
    }
    for _ in 0..r.pick(&[0, 0, 0, 1]) {
        sheets::damage(r, &mut sheet);
    }
    let band = if r.one_in(8) { bands::any_band(r) } else { band };
    (band, sheet)
}
