//! A second `regularize` and a second `improve_layout`, from document 01 and from point 5 of document 02, which share
//! nothing with the library. A gain is worked out from quads that are counted anew, in 64 bits, where the original
//! keeps its valences and squares them in 32. Beside that the valences are kept as point 5 wants them, one u32 for each
//! point, so that the greatest that is ever stored is known.
use crate::call::{Answer, Call};
use crate::field::Field;
use crate::operation::Operation;
use crate::quads::{Band, QuadMesh};
use crate::{Point, cross, dot, inner, levels, refusal, sub};
use std::collections::BTreeMap;

/// The most that a stored valence may be.
pub const MOST: u32 = 1_048_576;

/// A side of a quad: the quad, and the corner at which the side begins.
type Side = (usize, usize);

/// What is left of a call: the sheet, the swaps made, and the greatest valence that was stored.
#[derive(Clone, Debug)]
pub struct Cleaned {
    /// The sheet.
    pub sheet: QuadMesh,
    /// The swaps.
    pub count: usize,
    /// The greatest stored valence, 0 where there was no pass.
    pub greatest: u32,
}

/// The valences that a pass keeps.
struct Kept {
    valences: Vec<u32>,
    greatest: u32,
}

impl Kept {
    /// Those of a sheet.
    fn of(sheet: &QuadMesh) -> Kept {
        let mut kept = Kept { valences: vec![0; sheet.points.len()], greatest: 0 };
        sheet.quads.iter().flatten().for_each(|&corner| kept.raise(corner));
        kept
    }

    /// One quad more at a point.
    fn raise(&mut self, point: usize) {
        self.valences[point] += 1;
        self.greatest = self.greatest.max(self.valences[point]);
    }

    /// One quad less at a point.
    fn lower(&mut self, point: usize) {
        self.valences[point] -= 1;
    }
}

/// How many quads have a point for a corner.
fn counted(quads: &[[usize; 4]], point: usize) -> i64 {
    quads.iter().filter(|quad| quad.contains(&point)).count() as i64
}

/// How far a number of quads is from four, squared.
fn error(quads: i64) -> i64 {
    (quads - 4) * (quads - 4)
}

/// The quad of six corners that begins at corner k.
fn quad_from(six: [usize; 6], k: usize) -> [usize; 4] {
    [0, 1, 2, 3].map(|step| six[(k + step) % 6])
}

/// The two quads on both sides of the diagonal from corner k to the one across.
fn pair_of(six: [usize; 6], k: usize) -> [[usize; 4]; 2] {
    [quad_from(six, k), [k, k + 3, k + 4, k + 5].map(|corner| six[corner % 6])]
}

/// The shape of a quad, measured against a normal.
fn shape(points: &[Point], quad: [usize; 4], normal: Point) -> f64 {
    let at = |k: usize| points[quad[k % 4]];
    let corner = |k: usize| {
        let (next, before) = (sub(at(k + 1), at(k)), sub(at(k + 3), at(k)));
        2.0 * dot(cross(next, before), normal) / (dot(next, next) + dot(before, before)).max(1e-30)
    };
    (0..4).map(corner).fold(1.0, f64::min)
}

/// The sides of all quads along each edge, which is named by its smaller and its larger point.
fn sides_of(quads: &[[usize; 4]]) -> BTreeMap<(usize, usize), Vec<Side>> {
    let mut sides: BTreeMap<_, Vec<Side>> = BTreeMap::new();
    for (i, quad) in quads.iter().enumerate() {
        for k in 0..4 {
            let (a, b) = (quad[k], quad[(k + 1) % 4]);
            sides.entry((a.min(b), a.max(b))).or_default().push((i, k));
        }
    }
    sides
}

/// A diagonal that may take the place of an edge: its first corner among the six, what it gains, and its two quads.
struct Candidate {
    k: usize,
    gain: i64,
    pair: [[usize; 4]; 2],
}

/// A pass under way.
struct Pass<'a> {
    sheet: &'a mut QuadMesh,
    band: &'a Band<'a, Field>,
    neutral: bool,
    start: Vec<[usize; 4]>,
    sides: BTreeMap<(usize, usize), Vec<Side>>,
    barred: Vec<bool>,
    kept: Kept,
}

impl<'a> Pass<'a> {
    /// The start of a pass over a sheet; swaps that gain nothing are taken where `neutral` says so.
    fn over(sheet: &'a mut QuadMesh, band: &'a Band<'a, Field>, neutral: bool) -> Pass<'a> {
        let start = sheet.quads.clone();
        let (sides, barred, kept) = (sides_of(&start), vec![false; start.len()], Kept::of(sheet));
        Pass { sheet, band, neutral, start, sides, barred, kept }
    }

    /// The six corners round two quads that share an edge; none unless both are free, of one label, run opposite ways
    /// and have six different corners.
    fn corners(&self, (i, a): Side, (j, b): Side) -> Option<[usize; 6]> {
        let (q, r) = (self.sheet.quads[i], self.sheet.quads[j]);
        let (first, second) = (|k: usize| q[(a + k) % 4], |k: usize| r[(b + k) % 4]);
        let six = [first(0), second(2), second(3), first(1), first(2), first(3)];
        let free = !self.barred[i] && !self.barred[j] && self.sheet.labels[i] == self.sheet.labels[j];
        let opposite = first(0) == second(1) && first(1) == second(0);
        let differ = (0..6).all(|k| !six[..k].contains(&six[k]));
        (free && opposite && differ).then_some(six)
    }

    /// By how much the sum of the squared errors at the four ends falls if a diagonal takes the place of the edge.
    fn gain(&self, six: [usize; 6], k: usize) -> i64 {
        let quads = |corner: usize| counted(&self.sheet.quads, six[corner]);
        let fall = |before: i64, after: i64| error(before) - error(after);
        let [a, b, c, d] = [0, 3, k, k + 3].map(quads);
        fall(a, a - 1) + fall(b, b - 1) + fall(c, c + 1) + fall(d, d + 1)
    }

    /// The diagonal from corner k, if the rule takes it.
    fn candidate(&self, six: [usize; 6], k: usize, normal: Point, old: f64) -> Option<Candidate> {
        let (c, d) = (six[k], six[k + 3]);
        if self.sides.contains_key(&(c.min(d), c.max(d))) {
            return None;
        }
        let (gain, pair) = (self.gain(six, k), pair_of(six, k));
        let new = pair.map(|quad| shape(&self.sheet.points, quad, normal)).into_iter().fold(f64::INFINITY, f64::min);
        let worth = gain > 0 || (gain == 0 && self.neutral && new >= old + 0.02);
        (worth && new >= old.min(0.25)).then_some(Candidate { k, gain, pair })
    }

    /// The diagonal that is taken at six corners: the higher gain, the first on a tie.
    fn choice(&self, six: [usize; 6], [i, j]: [usize; 2]) -> Option<Candidate> {
        let sum = six.iter().fold([0.0; 3], |sum: Point, &v| {
            let p = self.sheet.points[v];
            [sum[0] + p[0], sum[1] + p[1], sum[2] + p[2]]
        });
        let normal = inner::normal(self.band, sum.map(|x| x * (1.0 / 6.0)), self.sheet.labels[i]);
        let old = [i, j].map(|quad| shape(&self.sheet.points, self.sheet.quads[quad], normal));
        let of = |k| self.candidate(six, k, normal, old[0].min(old[1]));
        match (of(1), of(2)) {
            (Some(first), Some(second)) if second.gain > first.gain => Some(second),
            (Some(first), _) => Some(first),
            (None, second) => second,
        }
    }

    /// Swaps two quads, keeps the valences, and bars every quad that had one of the six corners at the start.
    fn swap(&mut self, six: [usize; 6], [i, j]: [usize; 2], Candidate { k, pair, .. }: Candidate) {
        [self.sheet.quads[i], self.sheet.quads[j]] = pair;
        [0, 3].into_iter().for_each(|corner| self.kept.lower(six[corner]));
        [k, k + 3].into_iter().for_each(|corner| self.kept.raise(six[corner]));
        let near = |quad: &[usize; 4]| quad.iter().any(|corner| six.contains(corner));
        self.barred.iter_mut().zip(&self.start).for_each(|(barred, quad)| *barred |= near(quad));
    }

    /// Tries every edge of the start once, in order; the swaps made.
    fn run(&mut self) -> usize {
        let pairs: Vec<[Side; 2]> = self.sides.values().filter_map(|sides| sides[..].try_into().ok()).collect();
        let mut count = 0;
        for [first, second] in pairs {
            let two = [first.0, second.0];
            let Some(six) = self.corners(first, second) else { continue };
            let Some(choice) = self.choice(six, two) else { continue };
            self.swap(six, two, choice);
            count += 1;
        }
        count
    }

    /// Whether the kept valences are those of the quads now; each corner of a quad counts.
    fn keeps(&self) -> bool {
        let found = Kept::of(self.sheet);
        found.valences == self.kept.valences
    }
}

/// What a call of one of the two operations leaves, or the number of its refusal, which is that of a level that is not
/// finite, or the original's.
pub fn cleaned(call: &Call) -> Result<Cleaned, u8> {
    let (band, neutral) = (call.band.band(), call.operation == Operation::ImproveLayout);
    if let Some(refused) = levels::judged(call) {
        return Err(refused.number);
    }
    inner::constraints(&call.sheet, &band).map_err(|error| refusal::number(&error))?;
    let mut all = Cleaned { sheet: call.sheet.clone(), count: 0, greatest: 0 };
    for _ in 0..call.argument {
        let mut pass = Pass::over(&mut all.sheet, &band, neutral);
        let count = pass.run();
        assert!(pass.keeps() && pass.kept.greatest <= MOST, "a valence is lost or too large");
        (all.count, all.greatest) = (all.count + count, all.greatest.max(pass.kept.greatest));
        if count == 0 {
            break;
        }
    }
    Ok(all)
}

/// The same as an answer.
pub fn answer(cleaned: &Result<Cleaned, u8>) -> Answer {
    match cleaned {
        Ok(all) => Answer::sheet(all.count, &all.sheet),
        Err(number) => Answer::refused(*number),
    }
}

#[cfg(test)]
mod tests {
    use super::*;
    use crate::call::expected;
    use crate::random::Random;
    use crate::{crowds, inputs, patches};

    /// Both operations.
    const BOTH: [Operation; 2] = [Operation::Regularize, Operation::ImproveLayout];

    #[test]
    fn the_original_answers_the_same_on_crowded_sheets() {
        let (mut r, mut swaps, mut full) = (Random::new(1), 0, 0);
        for operation in BOTH.into_iter().cycle().take(4000) {
            let call = crowds::call(&mut r, operation);
            let found = cleaned(&call);
            assert_eq!(answer(&found), expected(&call), "{call:?}");
            let Ok(all) = found else { continue };
            swaps += all.count;
            full += usize::from(all.greatest as usize == call.sheet.quads.len());
        }
        assert!(swaps > 800 && full > 1000, "{swaps} swaps, {full} with a point that all quads share");
    }

    #[test]
    fn the_original_answers_the_same_on_other_sheets() {
        let mut r = Random::new(2);
        for operation in BOTH.into_iter().cycle().take(4000) {
            let call = inputs::call(&mut r, operation);
            assert_eq!(answer(&cleaned(&call)), expected(&call), "{call:?}");
        }
    }

    #[test]
    fn the_starred_swaps_are_made() {
        for (sheet, swaps) in [
            (patches::squares(), [0, 0]),
            (patches::turned(), [1, 1]),
            (patches::turned_at_four(), [1, 1]),
            (patches::turned_among_fours(), [0, 1]),
        ] {
            let on = |operation| Call { operation, argument: 1, band: patches::BAND, sheet: sheet.clone() };
            assert_eq!(BOTH.map(|operation| cleaned(&on(operation)).unwrap().count), swaps);
        }
    }

    #[test]
    fn the_bound_is_reached_by_a_swap() {
        for operation in BOTH {
            let call = crowds::at(operation, 1, crowds::crowded(MOST as usize));
            assert_eq!(counted(&call.sheet.quads, 2), i64::from(MOST) - 1);
            let all = cleaned(&call).unwrap();
            assert_eq!((all.count, all.greatest, counted(&all.sheet.quads, 2)), (1, MOST, i64::from(MOST)));
        }
    }
}
