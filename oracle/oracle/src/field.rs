//! The three fields of document 01, worked left to right, each operation rounded.
use crate::Point;
use crate::implicit::ScalarField;
use crate::quads::Band;

/// A field with its own numbers.
#[derive(Clone, Copy, Debug, PartialEq)]
pub enum Field {
    /// a·x + b·y + c·z − d.
    Plane([f64; 4]),
    /// The squared distance from (cx, cy, cz), less r.
    Ball([f64; 4]),
    /// k0·x·x + k1·y·y + k2·z·z + k3·x·y + k4·y·z + k5·z·x + k6·x + k7·y + k8·z + k9.
    Quadric([f64; 10]),
}

impl Field {
    /// The kind as a number: 0 Plane, 1 Ball, 2 Quadric.
    pub fn kind(&self) -> u8 {
        match self {
            Field::Plane(_) => 0,
            Field::Ball(_) => 1,
            Field::Quadric(_) => 2,
        }
    }

    /// The field's numbers, filled up with zeros.
    pub fn numbers(&self) -> [f64; 10] {
        let mut all = [0.0; 10];
        match self {
            Field::Plane(few) | Field::Ball(few) => all[..4].copy_from_slice(few),
            Field::Quadric(ten) => all = *ten,
        }
        all
    }

    /// The field of a kind, or none if there is no such kind.
    pub fn of(kind: u8, numbers: [f64; 10]) -> Option<Field> {
        let few = [numbers[0], numbers[1], numbers[2], numbers[3]];
        match kind {
            0 => Some(Field::Plane(few)),
            1 => Some(Field::Ball(few)),
            2 => Some(Field::Quadric(numbers)),
            _ => None,
        }
    }
}

impl ScalarField for Field {
    fn value(&self, [x, y, z]: Point) -> f64 {
        match *self {
            Field::Plane([a, b, c, d]) => a * x + b * y + c * z - d,
            Field::Ball([cx, cy, cz, r]) => {
                let (dx, dy, dz) = (x - cx, y - cy, z - cz);
                dx * dx + dy * dy + dz * dz - r
            }
            Field::Quadric(k) => {
                k[0] * x * x
                    + k[1] * y * y
                    + k[2] * z * z
                    + k[3] * x * y
                    + k[4] * y * z
                    + k[5] * z * x
                    + k[6] * x
                    + k[7] * y
                    + k[8] * z
                    + k[9]
            }
        }
    }

    fn gradient(&self, [x, y, z]: Point) -> Option<Point> {
        match *self {
            Field::Plane([a, b, c, _]) => Some([a, b, c]),
            Field::Ball([cx, cy, cz, _]) => Some([2.0 * (x - cx), 2.0 * (y - cy), 2.0 * (z - cz)]),
            Field::Quadric(_) => None,
        }
    }
}

/// All the numbers of a band; the original's band borrows its field from here.
#[derive(Clone, Copy, Debug, PartialEq)]
pub struct BandNumbers {
    /// The field.
    pub field: Field,
    /// The low and the high corner of the box.
    pub bounds: [Point; 2],
    /// The lower and the upper level.
    pub levels: [f64; 2],
}

impl BandNumbers {
    /// The original's band of these numbers.
    pub fn band(&self) -> Band<'_, Field> {
        Band { field: &self.field, bounds: self.bounds, levels: self.levels }
    }
}
