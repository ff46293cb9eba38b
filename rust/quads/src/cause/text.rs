//! The texts of the causes.
use super::{Cause, Miss, Origin, Section, TrailerFault};
use crate::label::Label;
use crate::sheet::Counts;
use std::fmt;

/// Its text.
impl fmt::Display for Cause {
    fn fmt(&self, f: &mut fmt::Formatter<'_>) -> fmt::Result {
        match *self {
            Cause::Level { level, value } => write!(f, "the {level} is {value:?}"),
            Cause::Levels { lower, upper } => write!(f, "the lower level {lower:?} is not below {upper:?}"),
            Cause::Bound { face, value } => write!(f, "the {face} is at {value:?}"),
            Cause::Bounds { face, at: [low, high] } => {
                write!(f, "the {face} is at {low:?}, the {} at {high:?}", face.opposite())
            }
            Cause::Diagonal(length) => write!(f, "the diagonal of the box has the length {length:?}"),
            Cause::Number { name, value } => write!(f, "the field's number {name} is {value:?}"),
            Cause::Sample { place, point, value } => f.write_str(&sample(place, point, value)),
            Cause::Missed { field, levels } => f.write_str(&missed(field, levels)),
            Cause::NoPoint => f.write_str("it has no point"),
            Cause::NoQuad => f.write_str("it has no quad"),
            Cause::Labels { quads, labels } => write!(f, "it has {} and {}", Of(quads, "quad"), Of(labels, "label")),
            Cause::Point { point, at } => write!(f, "point {point} is {}", At(at)),
            Cause::Smoothed(origin) => write!(f, "{origin} is not finite once it is smoothed"),
            Cause::Label { quad, label } => write!(f, "quad {quad} has the label {label}"),
            Cause::Range { quad, corner, point, points } => {
                write!(f, "corner {corner} of quad {quad} is point {point}, and there are {}", Of(points, "point"))
            }
            Cause::Twice { quad, corners: [i, j], point } => {
                write!(f, "corners {i} and {j} of quad {quad} are both point {point}")
            }
            Cause::Unused(point) => write!(f, "point {point} has no quad"),
            Cause::Opposite { point, labels } => write!(f, "point {point} lies on {}", Both(labels)),
            Cause::Cell { centre, labels, .. } => write!(f, "the cell at {} lies on {}", At(centre), Both(labels)),
            Cause::Borderless(point) => write!(f, "rows leave point {point}, where patches touch, without a quad"),
            Cause::Edge { points: [a, b], quads } => {
                write!(f, "the edge from point {a} to point {b} has {}", Of(quads, "quad"))
            }
            Cause::Astray { origin, miss } => write!(f, "{origin} {miss}"),
            Cause::Row { point, label } => f.write_str(&copy(point, label)),
            Cause::Normal { quad, gradient } => {
                write!(f, "at the centre of quad {quad} the gradient is {}", At(gradient))
            }
            Cause::Large(counts) => f.write_str(&large(counts)),
            Cause::Trailer(fault) => fault.fmt(f),
            Cause::Sum { written, sheet } => f.write_str(&sums(written, sheet)),
        }
    }
}

/// What the file or its trailer has, and what a job file has.
impl fmt::Display for TrailerFault {
    fn fmt(&self, f: &mut fmt::Formatter<'_>) -> fmt::Result {
        match *self {
            TrailerFault::Short(bytes) if bytes < 84 => {
                write!(f, "the file has {}, and a job file has 84 or more", Of(bytes, "byte"))
            }
            TrailerFault::Short(bytes) => {
                write!(f, "the file has {bytes} bytes, and a job file whose trailer has 28 bytes has 92 or more")
            }
            TrailerFault::Behind { end, bytes } => {
                write!(f, "a job file ends at byte {end}, and {} behind it", Are(bytes, "byte"))
            }
            TrailerFault::Length(length) => {
                write!(f, "its last number, the length of the trailer, is {length} and neither 28 nor 20")
            }
            TrailerFault::Start(start) => write!(f, "its points start at byte {start} and not at byte 64"),
            TrailerFault::Order { section, from, to } => {
                write!(f, "{} at byte {to}, before the {section} at byte {from}", behind(section))
            }
            TrailerFault::Part { section, bytes } => {
                let size = section.element();
                write!(f, "its {section} take {}, which is no multiple of {size}", Of(bytes as usize, "byte"))
            }
            TrailerFault::End { start, length, bytes } => {
                let end = bytes.saturating_sub(length as usize);
                let last = format!("the last {length} bytes start at byte {end}");
                write!(f, "its trailer is said to start at byte {start}, and {last}")
            }
        }
    }
}

/// Its name.
impl fmt::Display for Section {
    fn fmt(&self, f: &mut fmt::Formatter<'_>) -> fmt::Result {
        f.write_str(match self {
            Section::Points => "points",
            Section::Quads => "quads",
            Section::Labels => "labels",
        })
    }
}

/// What stands behind a section, and that it starts.
fn behind(section: Section) -> &'static str {
    match section {
        Section::Points => "its quads start",
        Section::Quads => "its labels start",
        Section::Labels => "its trailer starts",
    }
}

/// The copy of a point in the patch of a label.
fn copy(point: usize, label: Label) -> String {
    format!("the copy of point {point} on the {label} (label {})", label.number())
}

/// The sum that a trailer says, and that of the sheet.
fn sums(written: u64, sheet: u64) -> String {
    format!("its trailer says the sum {written}, and the sum of its sheet is {sheet}")
}

/// What a sheet has.
fn large(Counts { points, quads, labels }: Counts) -> String {
    format!("it has {}, {} and {}", Of(points, "point"), Of(quads, "quad"), Of(labels, "label"))
}

/// What is wrong at a place of the grid.
fn sample([i, j, k]: [usize; 3], point: [f64; 3], value: f64) -> String {
    let much = if value.is_finite() { ", too much beside the distance of the levels" } else { "" };
    format!("at place ({i}, {j}, {k}), the point {}, the field is {value:?}{much}", At(point))
}

/// Between what the field lies, and between what it was to lie.
fn missed([least, greatest]: [f64; 2], [lower, upper]: [f64; 2]) -> String {
    format!(
        "over the grid the field is from {least:?} to {greatest:?}, nowhere between the levels {lower:?} and {upper:?}"
    )
}

/// A count and the name of what is counted.
struct Of(usize, &'static str);

impl fmt::Display for Of {
    fn fmt(&self, f: &mut fmt::Formatter<'_>) -> fmt::Result {
        write!(f, "{} {}{}", self.0, self.1, if self.0 == 1 { "" } else { "s" })
    }
}

/// That so many things are somewhere.
struct Are(usize, &'static str);

impl fmt::Display for Are {
    fn fmt(&self, f: &mut fmt::Formatter<'_>) -> fmt::Result {
        write!(f, "{} {}", Of(self.0, self.1), if self.0 == 1 { "is" } else { "are" })
    }
}

/// Three coordinates.
struct At([f64; 3]);

impl fmt::Display for At {
    fn fmt(&self, f: &mut fmt::Formatter<'_>) -> fmt::Result {
        let [x, y, z] = self.0;
        write!(f, "({x:?}, {y:?}, {z:?})")
    }
}

/// Two opposite labels.
struct Both([Label; 2]);

impl fmt::Display for Both {
    fn fmt(&self, f: &mut fmt::Formatter<'_>) -> fmt::Result {
        let [one, other] = self.0;
        if one.is_level() {
            f.write_str("both levels")?;
        } else {
            write!(f, "two opposite faces, the {one} and the {other}")?;
        }
        write!(f, " (labels {} and {})", one.number(), other.number())
    }
}

/// What it comes from.
impl fmt::Display for Origin {
    fn fmt(&self, f: &mut fmt::Formatter<'_>) -> fmt::Result {
        match self {
            Origin::Point(point) => write!(f, "point {point}"),
            Origin::Edge([a, b]) => write!(f, "the midpoint of the edge from point {a} to point {b}"),
            Origin::Quad(quad) => write!(f, "the centre of quad {quad}"),
        }
    }
}

/// What the point does.
impl fmt::Display for Miss {
    fn fmt(&self, f: &mut fmt::Formatter<'_>) -> fmt::Result {
        f.write_str(match self {
            Miss::Flat => "lies where the field is flat or not finite",
            Miss::Level => "does not reach its level in twenty moves",
            Miss::Box => "leaves the box on the way to its level",
        })
    }
}
