//! The exports of the static library `export_leaves`, and its answer to a call.
use oracle::Point;
use oracle::call::{Answer, Call};
use oracle::operation::Operation;
use oracle::quads::QuadMesh;

/// Declares an export and calls it. Each group of arguments in turn adds its own types and values to the two lists, a
/// slice as its pointer and its length.
macro_rules! leaf {
    ($name:ident -> $answer:ty, $($groups:tt)*) => { leaf!($name -> $answer; [] [] $($groups)*) };
    ($name:ident -> $answer:ty; [$($kind:ty),*] [$($value:ident)*]) => {{
        unsafe extern "C" {
            fn $name($(_: $kind),*) -> $answer;
        }
        // SAFETY: each pointer goes with the length of its slice, and no slice that is written overlaps another.
        unsafe { $name($($value),*) }
    }};
    ($name:ident -> $answer:ty; [$($kind:ty),*] [$($value:ident)*] number $t:ty: $n:expr; $($rest:tt)*) => {{
        let number = $n;
        leaf!($name -> $answer; [$($kind,)* $t] [$($value)* number] $($rest)*)
    }};
    ($name:ident -> $answer:ty; [$($kind:ty),*] [$($value:ident)*] reads $t:ty: $s:expr; $($rest:tt)*) => {{
        let (length, pointer) = ($s.len(), $s.as_ptr());
        leaf!($name -> $answer; [$($kind,)* *const $t, usize] [$($value)* pointer length] $($rest)*)
    }};
    ($name:ident -> $answer:ty; [$($kind:ty),*] [$($value:ident)*] writes $t:ty: $s:expr; $($rest:tt)*) => {{
        let (length, pointer) = ($s.len(), $s.as_mut_ptr());
        leaf!($name -> $answer; [$($kind,)* *mut $t, usize] [$($value)* pointer length] $($rest)*)
    }};
    ($name:ident -> $answer:ty; [$($kind:ty),*] [$($value:ident)*] field $b:ident; $($rest:tt)*) => {
        leaf!($name -> $answer; [$($kind),*] [$($value)*] number u32: $b.kind; reads f64: $b.numbers; $($rest)*)
    };
    ($name:ident -> $answer:ty; [$($kind:ty),*] [$($value:ident)*] band $b:ident; $($rest:tt)*) => {
        leaf!($name -> $answer; [$($kind),*] [$($value)*] field $b; reads f64: $b.bounds; levels $b; $($rest)*)
    };
    ($name:ident -> $answer:ty; [$($kind:ty),*] [$($value:ident)*] levels $b:ident; $($rest:tt)*) => {
        leaf!($name -> $answer; [$($kind),*] [$($value)*] number f64: $b.lower; number f64: $b.upper; $($rest)*)
    };
    ($name:ident -> $answer:ty; [$($kind:ty),*] [$($value:ident)*] point $p:expr; $($rest:tt)*) => {{
        let [x, y, z] = $p;
        leaf!($name -> $answer; [$($kind,)* f64, f64, f64] [$($value)* x y z] $($rest)*)
    }};
}

unsafe extern "C" {
    safe fn leaf_sqrt(x: f64) -> f64;
}

/// The library's root.
pub fn sqrt(x: f64) -> f64 {
    leaf_sqrt(x)
}

/// A call's numbers as the exports take them.
struct Lent {
    kind: u32,
    numbers: [f64; 10],
    bounds: [f64; 6],
    lower: f64,
    upper: f64,
    point: Point,
    byte: u8,
}

impl Lent {
    /// The numbers of a call.
    fn of(call: &Call) -> Lent {
        let [[a, b, c], [d, e, f]] = call.band.bounds;
        let [lower, upper] = call.band.levels;
        Lent {
            kind: u32::from(call.band.field.kind()),
            numbers: call.band.field.numbers(),
            bounds: [a, b, c, d, e, f],
            lower,
            upper,
            point: call.sheet.points.first().copied().unwrap_or_default(),
            byte: call.argument as u8,
        }
    }

    /// The value of the field.
    fn value(&self) -> f64 {
        leaf!(leaf_value -> f64, field self; point self.point;)
    }

    /// The gradient, written to `out`; the number.
    fn gradient(&self, out: &mut Point) -> u32 {
        leaf!(leaf_gradient -> u32, band self; point self.point; writes f64: out;)
    }

    /// The normal, written to `out`; the number.
    fn normal(&self, out: &mut Point) -> u32 {
        leaf!(leaf_normal -> u32, band self; point self.point; number u8: self.byte; writes f64: out;)
    }

    /// The projection, written to `out`; the number.
    fn project(&self, out: &mut Point) -> u32 {
        leaf!(leaf_project -> u32, band self; point self.point; number u8: self.byte; writes f64: out;)
    }

    /// The tests of the band; the number.
    fn validate(&self) -> u32 {
        leaf!(leaf_validate -> u32, band self;)
    }

    /// The tests of a lent sheet; the number.
    fn constraints(&self, sheet: &QuadMesh) -> u32 {
        let points = sheet.points.as_flattened();
        let quads: Vec<u32> = sheet.quads.as_flattened().iter().map(|&corner| corner as u32).collect();
        let mut masks = vec![0; sheet.points.len()];
        leaf!(leaf_constraints -> u32,
            reads f64: points; reads u32: quads; reads u8: sheet.labels; band self; writes u32: masks;)
    }
}

/// The answer of a number and the point that was written.
fn written(write: impl FnOnce(&mut Point) -> u32) -> Answer {
    let mut out = [0.0; 3];
    match write(&mut out) {
        0 => Answer::point(out),
        number => Answer::refused(number as u8),
    }
}

/// What the library answers, or none where it has no such export yet.
pub fn answer(call: &Call) -> Option<Answer> {
    let lent = Lent::of(call);
    match call.operation {
        Operation::Sqrt => Some(Answer::number(leaf_sqrt(lent.point[0]))),
        Operation::Value => Some(Answer::number(lent.value())),
        Operation::Gradient => Some(written(|out| lent.gradient(out))),
        Operation::Normal => Some(written(|out| lent.normal(out))),
        Operation::Project => Some(written(|out| lent.project(out))),
        Operation::Validate => Some(Answer::refused(lent.validate() as u8)),
        Operation::Constraints => Some(Answer::refused(lent.constraints(&call.sheet) as u8)),
        _ => None,
    }
}
