//! The arithmetic of a look: the library's, each operation rounded as it is written.
use crate::band::{Band, Field};
use crate::cause::Miss;
use crate::sheet::Sheet;

/// A point in space, or a vector.
pub type Point = [f64; 3];

/// The sum.
pub fn add(a: Point, b: Point) -> Point {
    std::array::from_fn(|i| a[i] + b[i])
}

/// The difference.
pub fn sub(a: Point, b: Point) -> Point {
    std::array::from_fn(|i| a[i] - b[i])
}

/// Each coordinate times a number.
pub fn mul(a: Point, factor: f64) -> Point {
    a.map(|x| x * factor)
}

/// The sum of many.
pub fn sum(points: impl IntoIterator<Item = Point>) -> Point {
    points.into_iter().fold([0.0; 3], add)
}

/// The distance from the origin.
pub fn norm([x, y, z]: Point) -> f64 {
    (x * x + y * y + z * z).sqrt()
}

/// The vector of length 1 along another; one that is too short for that stays short.
pub fn unit(a: Point) -> Point {
    mul(a, 1.0 / norm(a).max(1e-300))
}

/// The diagonal of the box.
pub fn length(band: &Band) -> f64 {
    norm(sub(band.high, band.low))
}

/// The mean of a quad's corners.
pub fn centre(sheet: &Sheet, quad: &[u32; 4]) -> Point {
    mul(sum(quad.map(|v| sheet.points[v as usize])), 0.25)
}

/// The field's value.
pub fn value(field: &Field, [x, y, z]: Point) -> f64 {
    match *field {
        Field::Plane { a, b, c, d } => a * x + b * y + c * z - d,
        Field::Ball { cx, cy, cz, r } => {
            let [dx, dy, dz] = [x - cx, y - cy, z - cz];
            dx * dx + dy * dy + dz * dz - r
        }
        Field::Quadric([k0, k1, k2, k3, k4, k5, k6, k7, k8, k9]) => {
            let squares = k0 * x * x + k1 * y * y + k2 * z * z;
            squares + k3 * x * y + k4 * y * z + k5 * z * x + k6 * x + k7 * y + k8 * z + k9
        }
    }
}

/// The field's gradient: its own, or by central differences.
pub fn gradient(band: &Band, p: Point) -> Point {
    match band.field {
        Field::Plane { a, b, c, .. } => [a, b, c],
        Field::Ball { cx, cy, cz, .. } => sub(p, [cx, cy, cz]).map(|x| 2.0 * x),
        Field::Quadric(_) => {
            let h = length(band) * 1e-6;
            std::array::from_fn(|axis| difference(&band.field, p, axis, h))
        }
    }
}

/// The central difference along an axis, h to either side.
fn difference(field: &Field, p: Point, axis: usize, h: f64) -> f64 {
    let (mut right, mut left) = (p, p);
    right[axis] += h;
    left[axis] -= h;
    (value(field, right) - value(field, left)) / (2.0 * h)
}

/// Puts a point on the faces and the level of a mask.
pub fn project(band: &Band, mut p: Point, mask: u8) -> Result<Point, Miss> {
    let faces = |axis: usize| (mask >> (2 + 2 * axis)) & 3;
    for (axis, x) in p.iter_mut().enumerate() {
        *x = match faces(axis) {
            0 => *x,
            1 => band.low[axis],
            _ => band.high[axis],
        };
    }
    if mask & 3 != 0 {
        let level = if mask & 1 == 1 { band.upper } else { band.lower };
        p = walk(band, p, level, std::array::from_fn(|axis| if faces(axis) == 0 { 1.0 } else { 0.0 }))?;
    }
    let slack = length(band) * 1e-10;
    let inside = |axis: usize| p[axis] >= band.low[axis] - slack && p[axis] <= band.high[axis] + slack;
    if (0..3).all(inside) { Ok(p) } else { Err(Miss::Box) }
}

/// Goes to a level along the axes that are free, in up to twenty looks.
fn walk(band: &Band, mut p: Point, level: f64, free: Point) -> Result<Point, Miss> {
    let length = length(band);
    for _ in 0..20 {
        let (residual, slope) = (value(&band.field, p) - level, gradient(band, p));
        let slope = std::array::from_fn(|axis| slope[axis] * free[axis]);
        let steepness = norm(slope);
        if !residual.is_finite() || !steepness.is_finite() || steepness <= f64::MIN_POSITIVE {
            return Err(Miss::Flat);
        }
        let distance = residual / steepness;
        if distance.abs() <= length * 1e-12 {
            return Ok(p);
        }
        p = sub(p, mul(unit(slope), distance.clamp(-length * 0.05, length * 0.05)));
    }
    Err(Miss::Level)
}
