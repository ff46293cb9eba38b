//! Faults of lending: counts above the limit, slices that are too short and kinds that are none, up to two in a call.
//! The original knows none of them, so what is expected is a list of tests, and behind it what is expected without
//! them: the faults meet one another, and those of random sheets and bands.
use crate::flat::Flat;
use crate::library::{self, Lent};
use oracle::call::{Answer, Call};
use oracle::driver::Answers;
use oracle::operation::Operation;
use oracle::random::Random;
use quads::Counts;
use std::ops::Range;

/// The operations of which some calls have faults in a run of all operations, or of one.
const FAULTY: [Operation; 3] = [Operation::Quality, Operation::Corners, Operation::Page];

/// One of their calls in so many has.
const ONE_IN: usize = 4;

/// The most points, quads and labels that may be lent.
const MOST: usize = 1_048_576;

/// A fault.
#[derive(Clone, Copy, Debug)]
enum Fault {
    /// So many points, too many.
    ManyPoints(usize),
    /// So many quads, too many.
    ManyQuads(usize),
    /// So many labels, too many.
    ManyLabels(usize),
    /// A coordinate is missing.
    FewPoints,
    /// A corner is missing.
    FewQuads,
    /// A label is missing.
    FewLabels,
    /// A whole number of the work is missing.
    FewWholes,
    /// A float of the work is missing.
    FewFloats,
    /// A number of the field is missing.
    FewNumbers,
    /// A bound of the box is missing.
    FewBounds,
    /// A kind that no field has.
    Kind(u32),
    /// An answer slice of this length, too short.
    FewAnswers(usize),
    /// A measure is missing.
    FewMeasures,
    /// A page slice of this length, too short.
    ShortPage(usize),
    /// Slices for a new sheet that hold less than any sheet has. Their 13 comes behind 1, and every call with this fault
    /// has a level that is refused with 1, so no list below asks for it.
    FewRoom,
}

/// Puts a value into a place; that is a fault.
pub fn set<T>(place: &mut T, value: T) -> bool {
    *place = value;
    true
}

/// Leaves one element less than is needed; whether that is a fault, which it is not where none is needed.
pub fn cut<T>(list: &mut Vec<T>, needed: usize) -> bool {
    list.truncate(needed.saturating_sub(1));
    list.len() < needed
}

/// Leaves less room than any sheet needs.
fn shrink(room: &mut Flat) -> bool {
    room.points.truncate(5);
    room.quads.truncate(3);
    room.labels.clear();
    true
}

impl Fault {
    /// A fault of a kind, by its number, for a call of an operation.
    fn of(r: &mut Random, kind: usize, operation: Operation) -> Fault {
        let many = r.pick(&[MOST + 1, usize::MAX]);
        match kind {
            0 => Fault::ManyPoints(many),
            1 => Fault::ManyQuads(many),
            2 => Fault::ManyLabels(many),
            3 => Fault::FewPoints,
            4 => Fault::FewQuads,
            5 => Fault::FewLabels,
            6 => Fault::FewWholes,
            7 => Fault::FewFloats,
            8 => Fault::FewNumbers,
            9 => Fault::FewBounds,
            10 => Fault::Kind(r.pick(&[3, u32::MAX])),
            11 => Fault::short_answer(r, operation),
            _ if operation == Operation::Quality => Fault::FewMeasures,
            _ => Fault::FewRoom,
        }
    }

    /// A slice for the answer of an operation, or for its page, that is too short.
    fn short_answer(r: &mut Random, operation: Operation) -> Fault {
        match operation {
            Operation::Quality => Fault::FewAnswers(9),
            Operation::Page => Fault::ShortPage(r.pick(&[0, 1, 41, 327])),
            Operation::Corners => Fault::FewAnswers(r.below(2)),
            _ => Fault::FewAnswers(r.below(4)),
        }
    }

    /// Makes it in what is lent with a sheet of these counts, and this work; whether it is a fault there.
    fn make(self, lent: &mut Lent, Counts { points, quads, labels }: Counts, [wholes, floats]: [usize; 2]) -> bool {
        match self {
            Fault::ManyPoints(count) => set(&mut lent.sheet.counts.points, count),
            Fault::ManyQuads(count) => set(&mut lent.sheet.counts.quads, count),
            Fault::ManyLabels(count) => set(&mut lent.sheet.counts.labels, count),
            Fault::FewPoints => cut(&mut lent.sheet.points, 3 * points),
            Fault::FewQuads => cut(&mut lent.sheet.quads, 4 * quads),
            Fault::FewLabels => cut(&mut lent.sheet.labels, labels),
            Fault::FewWholes => cut(&mut lent.work.wholes, wholes),
            Fault::FewFloats => cut(&mut lent.work.floats, floats),
            Fault::FewNumbers => cut(&mut lent.band.numbers, 10),
            Fault::FewBounds => cut(&mut lent.band.bounds, 6),
            Fault::Kind(kind) => set(&mut lent.band.kind, kind),
            Fault::FewAnswers(length) => cut(&mut lent.answer, length + 1),
            Fault::FewMeasures => cut(&mut lent.measures, 4),
            Fault::ShortPage(length) => cut(&mut lent.page, length + 1),
            Fault::FewRoom => shrink(&mut lent.result),
        }
    }
}

/// The kinds of faults that a call of an operation can have, by their numbers: the first six are of a lent sheet, the
/// last is of measures or of room for a new sheet.
fn kinds(operation: Operation) -> Range<usize> {
    match operation {
        Operation::Extract => 6..13,
        Operation::Quality | Operation::Subdivide | Operation::Rows => 0..13,
        _ => 0..12,
    }
}

/// The elements of the two work slices that a drawing needs. Cells that are not allowed need none.
fn drawing_work(cells: usize) -> [usize; 2] {
    match cells {
        4..=128 => [12 * (cells + 2).pow(3), (cells + 3).pow(3)],
        _ => [0; 2],
    }
}

/// The elements of the two work slices that a sheet of these counts needs.
fn sheet_work(Counts { points, quads, .. }: Counts) -> [usize; 2] {
    [64 * (points + quads), 16 * (points + quads)]
}

/// How many answers, measures and bytes of a page an operation needs room for.
fn needed(operation: Operation) -> (usize, usize, usize) {
    match operation {
        Operation::Quality => (10, 4, 0),
        Operation::Corners => (2, 0, 0),
        Operation::Page => (0, 0, 328),
        _ => (4, 0, 0),
    }
}

/// Whether a work slice is shorter than these two must be.
fn has_little_work(lent: &Lent, [wholes, floats]: [usize; 2]) -> bool {
    lent.work.wholes.len() < wholes || lent.work.floats.len() < floats
}

/// Whether numbers or bounds are missing.
fn has_no_band(lent: &Lent) -> bool {
    lent.band.numbers.len() < 10 || lent.band.bounds.len() < 6
}

/// The number with which what is lent with a sheet is refused, whatever the sheet, the box and the levels are; none
/// where it is enough. `coarsen` without a pass looks at no band.
fn refusal(lent: &Lent, operation: Operation) -> Option<u8> {
    let Counts { points, quads, labels } = lent.sheet.counts;
    if points > MOST || quads > MOST || labels > MOST {
        return Some(12);
    }
    let (answers, measures, page) = needed(operation);
    let short = lent.sheet.points.len() < 3 * points
        || lent.sheet.quads.len() < 4 * quads
        || lent.sheet.labels.len() < labels
        || has_little_work(lent, sheet_work(lent.sheet.counts))
        || has_no_band(lent)
        || lent.answer.len() < answers
        || lent.measures.len() < measures
        || lent.page.len() < page;
    if short {
        return Some(13);
    }
    if operation == Operation::Coarsen && lent.argument == 0 {
        return None;
    }
    (lent.band.kind > 2).then_some(1)
}

/// The number with which a drawing is refused by what it is lent, where enough would be answered with `number`; none
/// where it is lent enough. Numbers and bounds come first, then the band, the cells, and the work and the answer; in a
/// run every drawing with faults has a level that is not finite, and the cells are met by the tests below.
fn drawing_refusal(lent: &Lent, number: u8) -> Option<u8> {
    if has_no_band(lent) {
        return Some(13);
    }
    if lent.band.kind > 2 || number == 1 {
        return Some(1);
    }
    if number == 3 {
        return Some(3);
    }
    (has_little_work(lent, drawing_work(lent.argument)) || lent.answer.len() < 4).then_some(13)
}

/// What is expected of a call with what is lent, where `without` is expected of it when enough is lent.
fn expected(lent: &Lent, operation: Operation, without: Answer) -> Answer {
    let number = match operation {
        Operation::Extract => drawing_refusal(lent, without.number),
        _ => refusal(lent, operation),
    };
    number.map_or(without, Answer::refused)
}

/// What a call lends with these faults, and how many of them are faults there.
fn lend(call: &Call, faults: &[Fault]) -> (Lent, usize) {
    let mut made = 0;
    let lent = Lent::of(call).changed(|lent| {
        let sheet = lent.sheet.counts;
        let drawing = call.operation == Operation::Extract;
        let work = if drawing { drawing_work(lent.argument) } else { sheet_work(sheet) };
        made = faults.iter().filter(|fault| fault.make(lent, sheet, work)).count();
    });
    (lent, made)
}

/// What the library answers to a call with what is lent; none where it left something behind.
fn answered(mut lent: Lent, operation: Operation) -> Option<Answer> {
    let number = lent.run(operation)?;
    lent.answer(operation, number)
}

/// Calls, some of them with faults, and how many had one, had two, and are refused without them too.
pub struct Faults {
    operations: &'static [Operation],
    one_in: usize,
    random: Random,
    one: u64,
    two: u64,
    refused: u64,
}

impl Faults {
    /// None yet; those of a seed.
    pub fn new(seed: u64) -> Faults {
        Faults::among(&FAULTY, ONE_IN, seed)
    }

    /// None yet; those of a seed, in one call in so many of these operations.
    pub fn among(operations: &'static [Operation], one_in: usize, seed: u64) -> Faults {
        Faults { operations, one_in, random: Random::new(!seed), one: 0, two: 0, refused: 0 }
    }

    /// What is expected of a call, and what the library answers; some calls have faults.
    pub fn ask(&mut self, call: &Call) -> Answers {
        self.ask_expecting(call, library::expected(call))
    }

    /// The same, where `without` is expected of the call when it has no fault.
    pub fn ask_expecting(&mut self, call: &Call, without: Answer) -> Answers {
        if !self.operations.contains(&call.operation) || !self.random.one_in(self.one_in) {
            return (without, library::answer(call));
        }
        let faults = self.draw(call.operation);
        let (lent, made) = lend(call, &faults);
        self.count(made, without.number);
        let expected = expected(&lent, call.operation, without);
        let got = answered(lent, call.operation);
        if !got.as_ref().is_some_and(|got| expected.same(got, call.operation)) {
            println!("a call with the faults {faults:?} differs");
        }
        (expected, got)
    }

    /// One fault or two of different kinds.
    fn draw(&mut self, operation: Operation) -> Vec<Fault> {
        let (r, kinds) = (&mut self.random, kinds(operation));
        let first = r.below(kinds.len());
        let second = (first + 1 + r.below(kinds.len() - 1)) % kinds.len();
        let count = 1 + r.below(2);
        let chosen = [first, second].into_iter().take(count);
        chosen.map(|place| Fault::of(r, kinds.start + place, operation)).collect()
    }

    /// Counts a call with so many faults, of which this number is expected without them.
    fn count(&mut self, made: usize, number: u8) {
        self.one += u64::from(made == 1);
        self.two += u64::from(made == 2);
        self.refused += u64::from(made > 0 && number != 0);
    }

    /// Prints how many calls had faults, if any had, with a word in front.
    pub fn print(&self, front: &str) {
        let Faults { one, two, refused, .. } = self;
        if one + two > 0 {
            let calls = format!("{one} calls with one fault of lending, {two} with two");
            println!("{front}{calls}; {refused} of them are refused without it too");
        }
    }
}

#[cfg(test)]
mod tests {
    use super::*;
    use oracle::bands::UNIT;
    use oracle::field::BandNumbers;
    use oracle::{inputs, sheets};

    /// A call of corners per point on the cube.
    fn on_cube() -> Call {
        Call { operation: Operation::Corners, argument: 0, band: UNIT, sheet: sheets::cube() }
    }

    /// The number with which the cube is refused with these faults.
    fn number(faults: &[Fault]) -> Option<u8> {
        refusal(&lend(&on_cube(), faults).0, Operation::Corners)
    }

    /// The number with which its page is.
    fn page_number(faults: &[Fault]) -> Option<u8> {
        let call = Call { operation: Operation::Page, ..on_cube() };
        refusal(&lend(&call, faults).0, Operation::Page)
    }

    #[test]
    fn large_comes_before_short_and_short_before_the_kind() {
        assert_eq!(number(&[]), None);
        assert_eq!(number(&[Fault::Kind(3)]), Some(1));
        for short in [Fault::FewPoints, Fault::FewWholes, Fault::FewBounds, Fault::FewAnswers(1)] {
            assert_eq!([number(&[short]), number(&[short, Fault::Kind(3)])], [Some(13); 2]);
            for large in [Fault::ManyLabels(MOST + 1), Fault::ManyPoints(usize::MAX)] {
                assert_eq!([number(&[short, large]), number(&[large, short])], [Some(12); 2]);
            }
        }
    }

    #[test]
    fn a_short_page_is_one_of_the_short() {
        assert_eq!(page_number(&[]), None);
        for short in [0, 1, 41, 327].map(Fault::ShortPage) {
            assert_eq!([page_number(&[short]), page_number(&[Fault::Kind(3), short])], [Some(13); 2]);
            assert_eq!(page_number(&[short, Fault::ManyQuads(MOST + 1)]), Some(12));
            assert_eq!(number(&[short]), None);
        }
        assert_eq!(page_number(&[Fault::FewAnswers(0)]), None);
    }

    #[test]
    fn what_is_not_needed_is_no_fault() {
        let call = Call { sheet: sheets::empty(), ..on_cube() };
        let faults = [Fault::FewPoints, Fault::FewLabels, Fault::FewFloats, Fault::FewNumbers];
        assert_eq!(faults.map(|fault| lend(&call, &[fault]).1), [0, 0, 0, 1]);
    }

    /// All two kinds of faults of an operation.
    fn pairs(operation: Operation) -> impl Iterator<Item = [usize; 2]> {
        kinds(operation).flat_map(move |i| kinds(operation).map(move |j| [i, j]))
    }

    #[test]
    fn every_two_faults_are_answered_as_expected() {
        let mut r = Random::new(1);
        for operation in FAULTY {
            let call = Call { operation, ..on_cube() };
            for pair in pairs(operation) {
                let faults = pair.map(|kind| Fault::of(&mut r, kind, operation));
                let (lent, made) = lend(&call, &faults);
                assert_eq!(made, 2);
                let expected = refusal(&lent, operation).map(Answer::refused);
                assert_eq!(answered(lent, operation), expected, "{operation:?} {faults:?}");
            }
        }
    }

    /// The number of a call above minus infinity with faults of these kinds: 12 for counts, then 13, then 1.
    fn above_minus_infinity(operation: Operation, pair: [usize; 2]) -> u8 {
        let any = |kinds: &[usize]| pair.iter().any(|kind| kinds.contains(kind));
        let short: &[usize] = match operation {
            Operation::Extract => &[8, 9],
            Operation::Quality => &[3, 4, 5, 6, 7, 8, 9, 11, 12],
            _ => &[3, 4, 5, 6, 7, 8, 9, 11],
        };
        if any(&[0, 1, 2]) {
            return 12;
        }
        if any(short) { 13 } else { 1 }
    }

    #[test]
    fn every_two_faults_meet_a_lower_level_of_minus_infinity() {
        let (mut r, band) = (Random::new(3), BandNumbers { levels: [f64::NEG_INFINITY, 0.16], ..UNIT });
        for operation in crate::bottomless::OPERATIONS {
            let call = Call { operation, argument: 4, band, ..on_cube() };
            for pair in pairs(operation) {
                let faults = pair.map(|kind| Fault::of(&mut r, kind, operation));
                let (lent, made) = lend(&call, &faults);
                assert_eq!(made, 2, "{operation:?} {faults:?}");
                let answer = Answer::refused(above_minus_infinity(operation, pair));
                assert_eq!(expected(&lent, operation, library::expected(&call)), answer, "{operation:?} {faults:?}");
                assert_eq!(answered(lent, operation), Some(answer), "{operation:?} {faults:?}");
            }
        }
    }

    #[test]
    fn coarsen_without_a_pass_looks_at_neither_kind_nor_levels() {
        let band = BandNumbers { levels: [f64::NEG_INFINITY, 0.16], ..UNIT };
        let call = Call { operation: Operation::Coarsen, band, ..on_cube() };
        let (lent, _) = lend(&call, &[Fault::Kind(3)]);
        assert_eq!(refusal(&lent, Operation::Coarsen), None);
        assert_eq!(answered(lent, Operation::Coarsen), Some(Answer::sheet(0, &sheets::cube())));
        let (lent, _) = lend(&call, &[Fault::Kind(3), Fault::FewBounds]);
        assert_eq!(answered(lent, Operation::Coarsen), Some(Answer::refused(13)));
    }

    #[test]
    fn a_drawing_is_refused_for_its_cells_before_its_work() {
        let number = |argument, faults: &[Fault]| {
            let call = Call { operation: Operation::Extract, argument, sheet: sheets::empty(), ..on_cube() };
            let (lent, _) = lend(&call, faults);
            let expected = expected(&lent, Operation::Extract, library::expected(&call));
            assert_eq!(answered(lent, Operation::Extract).as_ref(), Some(&expected), "{argument} {faults:?}");
            expected.number
        };
        for few in [Fault::FewWholes, Fault::FewFloats, Fault::FewAnswers(3)] {
            assert_eq!([number(4, &[few]), number(4, &[few, Fault::Kind(3)])], [13, 1]);
            assert_eq!([number(3, &[few]), number(3, &[few, Fault::FewNumbers])], [3, 13]);
        }
        assert_eq!([number(3, &[Fault::FewBounds]), number(3, &[Fault::Kind(3)]), number(4, &[])], [13, 1, 0]);
    }

    #[test]
    fn random_calls_with_faults_agree() {
        let (mut r, mut faults) = (Random::new(2), Faults::new(2));
        for operation in FAULTY.iter().cycle().take(4000) {
            let call = inputs::call(&mut r, *operation);
            let (expected, got) = faults.ask(&call);
            assert!(got.is_some_and(|got| expected.same(&got, call.operation)), "{call:?}");
        }
        assert!(faults.one > 300 && faults.two > 300 && faults.refused > 100);
    }
}
