//! Faults of lending in calls that save and open jobs and read their sums: counts above the limit and slices that are
//! too short, up to two in a call, beside slices that are longer than needed and files that are damaged; and sheets at
//! the limit.
use crate::faults::{cut, set};
use crate::jobs::{self, JobLent};
use oracle::call::{Answer, Call};
use oracle::driver::{Answers, Tallies, Total};
use oracle::job::{self, Job, MOST, Room};
use oracle::operation::Operation;
use oracle::quads::QuadMesh;
use oracle::random::Random;
use oracle::{sheets, summed};
use quads::Counts;

/// One call in so many has a fault.
const ONE_IN: usize = 2;

/// A fault.
#[derive(Clone, Copy, Debug)]
enum Fault {
    /// So many points, quads or labels, too many, by their place; `save` alone is told counts.
    Many(usize, usize),
    /// A coordinate is missing.
    FewPoints,
    /// A corner is missing.
    FewQuads,
    /// A label is missing.
    FewLabels,
    /// A header of this length, too short.
    FewHeader(usize),
    /// An answer slice of this length, too short.
    FewAnswers(usize),
    /// An element of the work is missing.
    FewWork,
    /// A slice for the file that is so many bytes too short; `save` alone has one.
    FewBytes(usize),
}

/// How many kinds of faults a call of an operation can have.
fn kinds(operation: Operation) -> usize {
    match operation {
        Operation::Save => 10,
        Operation::Sum => 1,
        _ => 6,
    }
}

/// The first kind whose calls are refused with 12.
const FIRST_MANY: usize = 7;

impl Fault {
    /// A fault of a kind, by its number, for a call of an operation; the one that `sum` has stands first, those that
    /// `save` alone has stand last.
    fn of(r: &mut Random, kind: usize, operation: Operation) -> Fault {
        match kind {
            0 => Fault::FewAnswers(r.below(jobs::answers(operation))),
            1 => Fault::FewPoints,
            2 => Fault::FewQuads,
            3 => Fault::FewLabels,
            4 => Fault::FewHeader(r.below(8)),
            5 => Fault::FewWork,
            6 => Fault::FewBytes(r.pick(&[1, 8, 20, 64, 92])),
            _ => Fault::Many(kind - FIRST_MANY, r.pick(&[MOST + 1, usize::MAX])),
        }
    }

    /// Makes it in what is lent for a sheet of these counts; whether it is a fault there.
    fn make(self, lent: &mut JobLent, [points, quads, labels]: [usize; 3]) -> bool {
        let bytes = job::bytes([points, quads, labels]);
        match self {
            Fault::Many(0, count) => set(&mut lent.sheet.counts.points, count),
            Fault::Many(1, count) => set(&mut lent.sheet.counts.quads, count),
            Fault::Many(_, count) => set(&mut lent.sheet.counts.labels, count),
            Fault::FewPoints => cut(&mut lent.sheet.points, 3 * points),
            Fault::FewQuads => cut(&mut lent.sheet.quads, 4 * quads),
            Fault::FewLabels => cut(&mut lent.sheet.labels, labels),
            Fault::FewHeader(length) => cut(&mut lent.header, length + 1),
            Fault::FewAnswers(length) => cut(&mut lent.answer, length + 1),
            Fault::FewWork => cut(&mut lent.work, points),
            Fault::FewBytes(less) => cut(&mut lent.file, bytes.saturating_sub(less - 1)),
        }
    }
}

/// Makes slices longer or shorter, none shorter than it must be: those that `open` writes, those that `save` reads, the
/// work and the answer slice.
fn vary(r: &mut Random, lent: &mut JobLent, operation: Operation) {
    let needed = lent.work.len();
    lent.work.resize(needed + r.pick(&[0, 0, 5]), u32::MAX);
    let mut more = || r.pick(&[0, 1, 7]);
    lent.answer.truncate(jobs::answers(operation) + more());
    if operation == Operation::Save {
        let Counts { points, quads, labels } = lent.sheet.counts;
        lent.header.truncate(8 + more());
        lent.sheet.points.truncate(3 * points + more());
        lent.sheet.quads.truncate(4 * quads + more());
        lent.sheet.labels.truncate(labels + more());
        return;
    }
    lent.header.extend(vec![f64::NAN; more()]);
    lent.sheet.points.extend(vec![f64::NAN; more()]);
    lent.sheet.quads.extend(vec![u32::MAX; more()]);
    lent.sheet.labels.extend(vec![255; more()]);
}

/// Whether the answer slice or, of `save`, one that is read, the work or the file's is too short.
fn is_short(lent: &JobLent, operation: Operation) -> bool {
    let Counts { points, quads, labels } = lent.sheet.counts;
    let sheet = lent.sheet.points.len() < 3 * points
        || lent.sheet.quads.len() < 4 * quads
        || lent.sheet.labels.len() < labels
        || lent.work.len() < points
        || lent.file.len() < job::bytes([points, quads, labels]);
    lent.answer.len() < jobs::answers(operation) || operation == Operation::Save && (lent.header.len() < 8 || sheet)
}

/// The room that is lent to `open`.
fn room(lent: &JobLent) -> Room {
    let (sheet, header, work) = (&lent.sheet, lent.header.len(), lent.work.len());
    Room { header, points: sheet.points.len(), quads: sheet.quads.len(), labels: sheet.labels.len(), work }
}

/// What is expected of a call with what is lent: 14 for a file, then 12, then every 13, and then 17.
fn expected(call: &Call, lent: &JobLent) -> Answer {
    let Counts { points, quads, labels } = lent.sheet.counts;
    let is_large = [points, quads, labels].iter().any(|&n| n > MOST);
    let read = match call.operation {
        Operation::Save if is_large => return Answer::refused(12),
        Operation::Save => None,
        Operation::Sum => Some(job::summed(&lent.file)),
        _ => Some(job::opened(&lent.file, room(lent))),
    };
    match read {
        Some(answer) if [12, 14].contains(&answer.number) => answer,
        _ if is_short(lent, call.operation) => Answer::refused(13),
        Some(answer) => answer,
        None => Answer::file(&job::write(&job::of(call)), [points, quads, labels]),
    }
}

/// Calls that save, open and read sums, some of them with faults, and how many had one and had two.
pub struct JobFaults {
    random: Random,
    one: u64,
    two: u64,
}

impl JobFaults {
    /// None yet; those of a seed.
    pub fn new(seed: u64) -> JobFaults {
        JobFaults { random: Random::new(!seed), one: 0, two: 0 }
    }

    /// What is expected of a call, and what the library answers; some calls have faults.
    pub fn ask(&mut self, call: &Call) -> Answers {
        let mut lent = JobLent::of(call);
        vary(&mut self.random, &mut lent, call.operation);
        let faults = self.draw(call.operation);
        let counts = match call.operation {
            Operation::Save => job::counts(&call.sheet),
            _ => job::read(&call.sheet.labels).map_or([1, 1, 1], |job| job::counts(&job.sheet)),
        };
        let made = faults.iter().filter(|fault| fault.make(&mut lent, counts)).count();
        self.one += u64::from(made == 1);
        self.two += u64::from(made == 2);
        let expected = expected(call, &lent);
        let got = jobs::answer_with(lent, call.operation);
        if got.as_ref() != Some(&expected) {
            println!("a call with the faults {faults:?} differs");
        }
        (expected, got)
    }

    /// No fault, one, or two of different kinds.
    fn draw(&mut self, operation: Operation) -> Vec<Fault> {
        let (r, kinds) = (&mut self.random, kinds(operation));
        let count = if r.one_in(ONE_IN) { 1 + r.below(kinds.min(2)) } else { 0 };
        let first = r.below(kinds);
        let second = (first + 1 + r.below(kinds.max(2) - 1)) % kinds;
        [first, second].into_iter().take(count).map(|kind| Fault::of(r, kind, operation)).collect()
    }

    /// Prints how many calls had faults, if any had.
    pub fn print(&self) {
        let JobFaults { one, two, .. } = self;
        if one + two > 0 {
            println!("{one} calls of jobs with one fault of lending, {two} with two");
        }
    }
}

/// Sheets of so many points, of so many quads, of so many labels, and of so many points and quads that all name one of
/// them.
fn sheets_of(n: usize) -> [QuadMesh; 4] {
    [
        QuadMesh { points: vec![[0.5, f64::NAN, -0.0]; n], ..sheets::empty() },
        QuadMesh { quads: vec![[1, 2, 3, u32::MAX as usize]; n], ..sheets::empty() },
        QuadMesh { labels: vec![7; n], ..sheets::empty() },
        QuadMesh { points: vec![[0.5; 3]; n], quads: vec![[0; 4]; n], ..sheets::empty() },
    ]
}

/// Calls on a sheet at the limit or above it: saved, also into too little; opened, also into too little, with another
/// length of the trailer into too little, without a sum, and with a sum that is not its own; and its sum read.
fn calls_on(sheet: QuadMesh) -> [Call; 8] {
    let job = Job { header: [0.25; 8], sheet };
    let (file, old, sum) = (job::write(&job), job::write_old(&job), job::squared_sum(&job.sheet));
    let needed = job::counts(&job.sheet).into_iter().fold(0, usize::max) as u64;
    let (mut broken, mut wrong) = (file.clone(), file.clone());
    summed::put(&mut broken, 6, 24);
    summed::put_sum(&mut wrong, sum ^ 1 << 32);
    [
        job::save(job.clone(), file.len()),
        job::save(job, file.len() - 1),
        job::open(file.clone(), needed),
        job::open(file, needed - 1),
        job::open(broken, needed - 1),
        job::open(old, needed),
        job::open(wrong.clone(), needed),
        job::sum(wrong),
    ]
}

/// Compares calls on sheets at the limit and one above it; prints a line for each operation.
pub fn at_the_limit() -> Total {
    let mut tallies = Tallies::default();
    for sheet in [MOST, MOST + 1].into_iter().flat_map(sheets_of) {
        for call in calls_on(sheet) {
            tallies.count(&call, &oracle::call::expected(&call), jobs::answer(&call).as_ref());
        }
    }
    tallies.print("at the limit, ");
    tallies.total()
}

#[cfg(test)]
mod tests {
    use super::*;
    use oracle::inputs;

    #[test]
    fn every_two_faults_are_answered_as_expected() {
        let mut r = Random::new(1);
        let job = Job { header: [0.5; 8], sheet: sheets::cube() };
        let (file, old, mut wrong) = (job::write(&job), job::write_old(&job), job::write(&job));
        summed::put_sum(&mut wrong, 9);
        let [open, open_old, open_wrong] = [file.clone(), old.clone(), wrong].map(|file| job::open(file, 8));
        for call in [job::save(job, 386), open, open_old, open_wrong, job::sum(file), job::sum(old)] {
            let kinds = kinds(call.operation);
            for pair in (0..kinds).flat_map(|i| (0..kinds).map(move |j| [i, j])) {
                let mut lent = JobLent::of(&call);
                let faults = pair.map(|kind| Fault::of(&mut r, kind, call.operation));
                assert!(faults.iter().all(|fault| fault.make(&mut lent, [8, 6, 6])));
                let number = if pair.iter().any(|&kind| kind >= FIRST_MANY) { 12 } else { 13 };
                assert_eq!(expected(&call, &lent), Answer::refused(number), "{faults:?}");
                assert_eq!(jobs::answer_with(lent, call.operation), Some(Answer::refused(number)), "{faults:?}");
            }
        }
    }

    #[test]
    fn a_trailer_comes_before_every_fault_of_lending() {
        let mut r = Random::new(2);
        let file = job::write(&Job { header: [0.5; 8], sheet: sheets::cube() })[..385].to_vec();
        for call in [job::open(file.clone(), 8), job::sum(file)] {
            for kind in 0..kinds(call.operation) {
                let mut lent = JobLent::of(&call);
                assert!(Fault::of(&mut r, kind, call.operation).make(&mut lent, [8, 6, 6]));
                assert_eq!(jobs::answer_with(lent, call.operation), Some(Answer::refused(14)));
            }
        }
    }

    #[test]
    fn work_of_one_element_less_is_short_and_of_more_is_cleared() {
        let job = Job { header: [0.5; 8], sheet: sheets::cube() };
        for call in [job::save(job.clone(), 386), job::open(job::write(&job), 8), job::open(job::write_old(&job), 8)] {
            for (length, number) in [(7, 13), (8, 0), (13, 0)] {
                let mut lent = JobLent::of(&call);
                lent.work = vec![u32::MAX; length];
                let answer = jobs::answer_with(lent, call.operation);
                assert_eq!(answer.map(|answer| answer.number), Some(number));
            }
        }
    }

    #[test]
    fn random_calls_with_faults_agree() {
        let (mut r, mut faults) = (Random::new(3), JobFaults::new(3));
        let mut numbers = std::collections::BTreeSet::new();
        for operation in [Operation::Save, Operation::Open, Operation::Sum].into_iter().cycle().take(9000) {
            let call = inputs::call(&mut r, operation);
            let (expected, got) = faults.ask(&call);
            numbers.insert((operation, expected.number));
            assert_eq!(got, Some(expected), "{call:?}");
        }
        let saves = [0, 12, 13].map(|number| (Operation::Save, number));
        let opens = [0, 13, 14, 17].map(|number| (Operation::Open, number));
        let sums = [0, 13, 14].map(|number| (Operation::Sum, number));
        assert!(numbers.into_iter().eq(saves.into_iter().chain(opens).chain(sums)));
        assert!(faults.one > 2000 && faults.two > 600);
    }

    #[test]
    fn sheets_at_the_limit_agree() {
        let total = at_the_limit();
        assert_eq!((total.calls, total.differ), (64, 0));
    }
}
