//! What made an operation refuse.
mod text;

use crate::label::Label;
use crate::refusal::Refusal;
use crate::sheet::Counts;

/// What made an operation refuse, and where. Points, quads, corners, cells and places of the grid are numbered from 0.
#[derive(Clone, Copy, Debug, PartialEq)]
#[non_exhaustive]
pub enum Cause {
    /// 1: a level that is not finite; where a sheet is measured, never a lower level of minus infinity.
    Level {
        /// Which level.
        level: Label,
        /// What it is.
        value: f64,
    },
    /// 1: levels that are not in order.
    Levels {
        /// The lower level.
        lower: f64,
        /// The upper level.
        upper: f64,
    },
    /// 1: a bound of the box that is not finite.
    Bound {
        /// Which face.
        face: Label,
        /// Where it is.
        value: f64,
    },
    /// 1: a low face that is not below the high one.
    Bounds {
        /// The low face.
        face: Label,
        /// Where it is, and where the high face is.
        at: [f64; 2],
    },
    /// 1: a box whose diagonal has this length, 0 or infinite.
    Diagonal(f64),
    /// 4: a number of the field that is not finite.
    Number {
        /// Its name in [`Field`](crate::Field).
        name: &'static str,
        /// What it is.
        value: f64,
    },
    /// 4: a place of the grid where the field is not finite, or too large beside the levels.
    Sample {
        /// The place, in x, y and z.
        place: [usize; 3],
        /// The point there.
        point: [f64; 3],
        /// The field there.
        value: f64,
    },
    /// 5: no place of the grid lies in the band, so nothing is drawn.
    Missed {
        /// The least and the greatest value of the field at the places inside the box.
        field: [f64; 2],
        /// The lower and the upper level.
        levels: [f64; 2],
    },
    /// 5: no point.
    NoPoint,
    /// 5: no quad.
    NoQuad,
    /// 5: other than one label a quad.
    Labels {
        /// The quads.
        quads: usize,
        /// The labels.
        labels: usize,
    },
    /// 5: a point that is not finite.
    Point {
        /// Which point.
        point: usize,
        /// Its coordinates.
        at: [f64; 3],
    },
    /// 5: a point of the finer sheet that is not finite once it is smoothed.
    Smoothed(Origin),
    /// 6: a label above 7.
    Label {
        /// Which quad.
        quad: usize,
        /// Its label.
        label: u8,
    },
    /// 6: a corner that names a point which is not there.
    Range {
        /// Which quad.
        quad: usize,
        /// Which of its corners.
        corner: usize,
        /// The point that it names.
        point: u32,
        /// How many points there are.
        points: usize,
    },
    /// 6: a quad that names a point twice.
    Twice {
        /// Which quad.
        quad: usize,
        /// The two corners.
        corners: [usize; 2],
        /// The point.
        point: u32,
    },
    /// 7: a point without a quad.
    Unused(usize),
    /// 7: a point on both levels or on two opposite faces.
    Opposite {
        /// Which point.
        point: usize,
        /// The two labels.
        labels: [Label; 2],
    },
    /// 7: a cell of the grid whose point would lie on both levels or on two opposite faces.
    Cell {
        /// The cell, in x, y and z.
        cell: [usize; 3],
        /// Its centre.
        centre: [f64; 3],
        /// The two labels.
        labels: [Label; 2],
    },
    /// 7: a point of several labels that lies on no edge between two labels, so that rows would leave it without a
    /// quad.
    Borderless(usize),
    /// 8: an edge that has other than two quads.
    Edge {
        /// Its two points.
        points: [u32; 2],
        /// How many quads it has.
        quads: usize,
    },
    /// 9: a point of the finer sheet that cannot be projected.
    Astray {
        /// Which point.
        origin: Origin,
        /// Why it cannot.
        miss: Miss,
    },
    /// 10: a point whose copy finds no place.
    Row {
        /// Which point.
        point: usize,
        /// The label of the patch in which the copy was to lie.
        label: Label,
    },
    /// 11: a quad at whose centre the gradient gives no direction.
    Normal {
        /// Which quad.
        quad: usize,
        /// The gradient.
        gradient: [f64; 3],
    },
    /// 12: what the sheet has.
    Large(Counts),
    /// 14: what is wrong with a job file.
    Trailer(TrailerFault),
    /// 17: two sums that differ.
    Sum {
        /// The squared sum that the trailer says.
        written: u64,
        /// The squared sum of the sheet.
        sheet: u64,
    },
}

/// A point of the finer sheet, by what it comes from.
#[derive(Clone, Copy, Debug, PartialEq, Eq)]
pub enum Origin {
    /// A point.
    Point(usize),
    /// The middle of the edge between two points.
    Edge([u32; 2]),
    /// The centre of a quad.
    Quad(usize),
}

/// Why a point cannot be projected.
#[derive(Clone, Copy, Debug, PartialEq, Eq)]
pub enum Miss {
    /// The field is flat there, or not finite.
    Flat,
    /// The level is not reached in twenty moves.
    Level,
    /// The way to the level leaves the box.
    Box,
}

/// What is wrong with a job file: its length, or what its trailer says. Bytes are numbered from 0.
#[derive(Clone, Copy, Debug, PartialEq, Eq)]
#[non_exhaustive]
pub enum TrailerFault {
    /// The file has so many bytes, too few for the 64 in front of the points and a trailer: fewer than 84, or than 92
    /// where its last number says that the trailer has 28.
    Short(usize),
    /// A good trailer does not end the file.
    Behind {
        /// Where the trailer ends.
        end: usize,
        /// How many bytes are behind it.
        bytes: usize,
    },
    /// The last number, the length of the trailer, is this one and neither 28 nor 20.
    Length(u32),
    /// The points start here and not at 64.
    Start(u32),
    /// What stands behind a section starts before it.
    Order {
        /// Which section.
        section: Section,
        /// Where it starts.
        from: u32,
        /// Where what stands behind it starts.
        to: u32,
    },
    /// A section that ends within an element.
    Part {
        /// Which section.
        section: Section,
        /// How many bytes it has.
        bytes: u32,
    },
    /// The trailer is not where it is said to start, as many bytes before the end as its length says.
    End {
        /// Where it is said to start.
        start: u32,
        /// Its length, 28 or 20.
        length: u32,
        /// How many bytes the file has.
        bytes: usize,
    },
}

/// A section of a job file.
#[derive(Clone, Copy, Debug, PartialEq, Eq)]
pub enum Section {
    /// The points.
    Points,
    /// The quads.
    Quads,
    /// The labels.
    Labels,
}

impl Section {
    /// The bytes of one element.
    pub fn element(self) -> u32 {
        match self {
            Section::Points => 24,
            Section::Quads => 16,
            Section::Labels => 1,
        }
    }
}

impl Cause {
    /// The refusal that it is a cause of.
    pub fn refusal(&self) -> Refusal {
        match self {
            Cause::Level { .. } | Cause::Levels { .. } | Cause::Bound { .. } => Refusal::Box,
            Cause::Bounds { .. } | Cause::Diagonal(_) => Refusal::Box,
            Cause::Number { .. } | Cause::Sample { .. } => Refusal::Samples,
            Cause::Missed { .. } | Cause::NoPoint | Cause::NoQuad | Cause::Labels { .. } => Refusal::Bare,
            Cause::Point { .. } | Cause::Smoothed(_) => Refusal::Bare,
            Cause::Label { .. } | Cause::Range { .. } | Cause::Twice { .. } => Refusal::Corner,
            Cause::Unused(_) | Cause::Opposite { .. } => Refusal::Clash,
            Cause::Cell { .. } | Cause::Borderless(_) => Refusal::Clash,
            Cause::Edge { .. } => Refusal::Edge,
            Cause::Astray { .. } => Refusal::Astray,
            Cause::Row { .. } => Refusal::Row,
            Cause::Normal { .. } => Refusal::Normal,
            Cause::Large(_) => Refusal::Large,
            Cause::Trailer(_) => Refusal::Trailer,
            Cause::Sum { .. } => Refusal::Sum,
        }
    }

    /// What can be done, where that depends on the cause.
    pub(crate) fn advice(&self) -> Option<&'static str> {
        match *self {
            Cause::Level { .. } | Cause::Levels { .. } => Some("give finite levels, the lower below the upper"),
            Cause::Bound { .. } | Cause::Bounds { .. } => {
                Some("give a finite box whose low corner is below its high corner")
            }
            Cause::Diagonal(length) => Some(if length > 0.0 { "give a smaller box" } else { "give a larger box" }),
            Cause::Number { .. } => Some("give finite numbers for the field"),
            Cause::Sample { value, .. } if value.is_finite() => {
                Some("move the levels further apart, or use smaller numbers in the field and the box")
            }
            Cause::Missed { field, levels } => Some(beside(field, levels)),
            Cause::Smoothed(_) => Some("use smaller coordinates"),
            Cause::NoPoint | Cause::NoQuad | Cause::Labels { .. } | Cause::Point { .. } => Some(MEND),
            Cause::Unused(_) => Some("remove the point, or mend the sheet where it was made"),
            Cause::Borderless(_) => Some("draw with more cells, so that patches do not meet in a point alone"),
            Cause::Normal { gradient, .. } if !gradient.iter().all(|slope| slope.abs() < 1e150) => {
                Some("give finite and smaller numbers for the field")
            }
            Cause::Astray { miss: Miss::Flat, .. } => {
                Some("move the levels away from where the field is flat, or give finite numbers for the field")
            }
            Cause::Astray { .. } => Some("give the band around which the sheet was drawn, or draw with more cells"),
            Cause::Trailer(TrailerFault::Behind { .. }) => Some("take away the bytes behind the trailer"),
            _ => None,
        }
    }
}

/// What is to be done with a sheet that is none.
const MEND: &str = "mend the sheet where it was made";

/// What can be done where the field takes these values and no place lies between these levels.
fn beside([least, greatest]: [f64; 2], [lower, upper]: [f64; 2]) -> &'static str {
    if upper <= least || greatest <= lower {
        return "give levels that the field takes in the box, or another box; a small band needs more cells";
    }
    "draw with more cells: the band is thinner than a cell"
}
