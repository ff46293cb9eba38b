//! Calls of the library that save and open jobs, and that read their sums: everything they are lent, and what they
//! answer.
use crate::flat::Flat;
use oracle::call::{Answer, Call};
use oracle::job::{self, Job, Room};
use oracle::operation::Operation;
use oracle::quads::QuadMesh;
use quads::{Counts, ffi};

/// All that such a call is lent; what it writes is filled with what must be overwritten.
#[derive(Clone)]
pub struct JobLent {
    /// The header, which `save` reads and `open` writes.
    pub header: Vec<f64>,
    /// The sheet that `save` reads, or the slices into which `open` writes one.
    pub sheet: Flat,
    /// The work, one element a point, which `sum` does not take.
    pub work: Vec<u32>,
    /// The file, which `save` writes, and `open` and `sum` read.
    pub file: Vec<u8>,
    /// The answer slice.
    pub answer: Vec<u64>,
}

/// The elements of the answer slice that a call writes.
pub fn answers(operation: Operation) -> usize {
    if operation == Operation::Sum { 2 } else { 4 }
}

/// Slices of this room, filled with what must be overwritten.
fn filled(room: Room) -> Flat {
    let counts = Counts::default();
    Flat {
        points: vec![f64::NAN; room.points],
        quads: vec![u32::MAX; room.quads],
        labels: vec![255; room.labels],
        counts,
    }
}

/// Whether all of a list of floats is zero.
fn is_zero(floats: &[f64]) -> bool {
    floats.iter().all(|x| x.to_bits() == 0)
}

/// Whether two lists of floats are the same, bit for bit.
fn same(floats: &[f64], others: &[f64]) -> bool {
    floats.iter().map(|x| x.to_bits()).eq(others.iter().map(|x| x.to_bits()))
}

impl JobLent {
    /// What a call lends.
    pub fn of(call: &Call) -> JobLent {
        let answer = vec![u64::MAX; answers(call.operation) + 2];
        if call.operation == Operation::Save {
            let header = [&job::header(&call.band)[..], &[f64::NAN; 2]].concat();
            let (file, work) = (vec![255; call.argument as usize], vec![u32::MAX; call.sheet.points.len()]);
            return JobLent { header, sheet: Flat::with_tails(&call.sheet), work, file, answer };
        }
        let (room, file) = (Room::of(call.argument), call.sheet.labels.clone());
        let (header, work) = (vec![f64::NAN; room.header], vec![u32::MAX; room.work]);
        JobLent { header, sheet: filled(room), work, file, answer }
    }

    /// Saves, opens or reads the sum: 0, or the number of its refusal.
    pub fn run(&mut self, operation: Operation) -> u32 {
        let JobLent { header, sheet, work, file, answer } = self;
        match operation {
            Operation::Save => ffi::save_job(header, sheet.as_sheet_ref(), work, file, answer),
            Operation::Sum => ffi::job_sum(file, answer),
            _ => ffi::open_job(file, header, sheet.as_sheet_out(), work, answer),
        }
    }

    /// The elements of the answer that a call writes, none of a slice that is too short, and those behind them.
    fn answers(&self, operation: Operation) -> (&[u64], &[u64]) {
        self.answer.split_at_checked(answers(operation)).unwrap_or((&[], &self.answer))
    }

    /// Whether what is only read, or not lent at all, and what is behind the answer, is as it came, and the work is
    /// zero.
    fn is_kept(&self, came: &JobLent, operation: Operation) -> bool {
        let sheet = operation == Operation::Open || same(&self.header, &came.header) && self.sheet.same(&came.sheet);
        let file = operation == Operation::Save || self.file == came.file;
        let work = match operation {
            Operation::Sum => self.work == came.work,
            _ => self.work.iter().all(|&n| n == 0) && self.work.len() == came.work.len(),
        };
        sheet && file && work && self.answers(operation).1.iter().all(|&n| n == u64::MAX)
    }

    /// Whether a refusal left zeros in everything that would have been made.
    fn is_bare(&self, operation: Operation) -> bool {
        let made = match operation {
            Operation::Save => self.file.iter().all(|&byte| byte == 0),
            Operation::Sum => true,
            _ => is_zero(&self.header) && self.sheet.sheet(Counts::default()).is_some(),
        };
        made && self.answers(operation).0.iter().all(|&n| n == 0)
    }

    /// The file that was saved; none if something is left behind it.
    fn saved(&self) -> Option<Answer> {
        let ffi::Answer { count, sheet } = (*self.answer.first_chunk::<4>()?).into();
        let (file, behind) = self.file.split_at_checked(count)?;
        let counts = [sheet.points, sheet.quads, sheet.labels];
        behind.iter().all(|&byte| byte == 0).then(|| Answer::file(file, counts))
    }

    /// The job that was opened; none if something is left behind it, or something is counted.
    fn opened(&self) -> Option<Answer> {
        let ffi::Answer { count, sheet } = (*self.answer.first_chunk::<4>()?).into();
        let (header, behind) = self.header.split_first_chunk()?;
        let sheet: QuadMesh = self.sheet.sheet(sheet)?;
        (count == 0 && is_zero(behind)).then(|| Answer::job(&Job { header: *header, sheet }))
    }

    /// The sum that was read; none if it is not told by 0 and 0, or by 1 and a number.
    fn summed(&self) -> Option<Answer> {
        match *self.answer.first_chunk()? {
            [0, 0] => Some(Answer::sum(None)),
            [1, sum] => Some(Answer::sum(Some(sum))),
            _ => None,
        }
    }

    /// The answer to a call that was lent what came and ended with this number; none if it left something behind.
    pub fn answered(&self, came: &JobLent, operation: Operation, number: u32) -> Option<Answer> {
        match (number, operation) {
            _ if !self.is_kept(came, operation) => None,
            (0, Operation::Save) => self.saved(),
            (0, Operation::Sum) => self.summed(),
            (0, _) => self.opened(),
            _ => self.is_bare(operation).then(|| Answer::refused(number as u8)),
        }
    }
}

/// What the library answers to a call that lends this; none where it left something behind, or where a file that it
/// saved or opened does not come back.
pub fn answer_with(came: JobLent, operation: Operation) -> Option<Answer> {
    let mut lent = came.clone();
    let number = lent.run(operation);
    let answer = lent.answered(&came, operation, number)?;
    let bytes = if operation == Operation::Save { answer.count as usize } else { lent.file.len() };
    let comes_back = number != 0 || operation == Operation::Sum || comes_back(&lent.file[..bytes]);
    comes_back.then_some(answer)
}

/// What the library answers to a call; none where it left something behind.
pub fn answer(call: &Call) -> Option<Answer> {
    answer_with(JobLent::of(call), call.operation)
}

/// Whether a file opens by the Rust crate, and what it opens to is saved again byte for byte, a file without a sum in
/// front of its trailer, whose sum is then read.
fn comes_back(file: &[u8]) -> bool {
    let Ok(again) = quads::Job::open(file).and_then(|job| job.save()) else { return false };
    match quads::Job::sum(file) {
        Ok(Some(_)) => again == file,
        Ok(None) => job::read(file).is_ok_and(|job| again == job::write(&job)) && is_longer(&again, file),
        Err(_) => false,
    }
}

/// Whether a file is another without a sum, with a sum in it: the same up to the length of the trailer.
fn is_longer(file: &[u8], old: &[u8]) -> bool {
    let front = old.len() - 4;
    file.len() == old.len() + 8 && file[..front] == old[..front] && quads::Job::sum(file).is_ok_and(|sum| sum.is_some())
}

#[cfg(test)]
mod tests {
    use super::*;
    use oracle::call::expected;
    use oracle::random::Random;
    use oracle::{files, inputs, sheets, summed};
    use std::collections::BTreeSet;

    /// The cube between two levels.
    fn cube() -> Job {
        Job { header: [0.0, 0.0, 0.0, 1.0, 1.0, 1.0, -1.0, 2.0], sheet: sheets::cube() }
    }

    #[test]
    fn random_calls_agree() {
        let mut r = Random::new(1);
        for operation in [Operation::Save, Operation::Open, Operation::Sum].into_iter().cycle().take(9000) {
            let call = inputs::call(&mut r, operation);
            assert_eq!(answer(&call), Some(expected(&call)), "{call:?}");
        }
    }

    #[test]
    fn what_is_left_behind_is_seen() {
        let (call, number) = (job::save(cube(), 400), 0);
        let came = JobLent::of(&call);
        let mut lent = came.clone();
        assert_eq!(lent.run(Operation::Save), number);
        let seen = |change: fn(&mut JobLent)| {
            let mut lent = lent.clone();
            change(&mut lent);
            lent.answered(&came, Operation::Save, number).is_none_or(|answer| answer != expected(&call))
        };
        assert!(!seen(|_| ()));
        assert!(seen(|lent| lent.file[399] = 1) && seen(|lent| lent.file[385] = 1) && seen(|lent| lent.answer[4] = 0));
        assert!(seen(|lent| lent.answer[1] = 9) && seen(|lent| lent.header[9] = 0.0));
        assert!(seen(|lent| lent.sheet.labels[7] = 0) && seen(|lent| lent.file[374] = 9));
        assert!(seen(|lent| lent.work[7] = 1) && seen(|lent| lent.work.truncate(7)));
    }

    #[test]
    fn what_a_sum_leaves_behind_is_seen() {
        let call = job::sum(job::write(&cube()));
        let came = JobLent::of(&call);
        let mut lent = came.clone();
        assert_eq!(lent.run(Operation::Sum), 0);
        let seen = |change: fn(&mut JobLent)| {
            let mut lent = lent.clone();
            change(&mut lent);
            lent.answered(&came, Operation::Sum, 0).is_none_or(|answer| answer != expected(&call))
        };
        assert!(!seen(|_| ()));
        assert!(seen(|lent| lent.answer[0] = 2) && seen(|lent| lent.answer[1] = 9) && seen(|lent| lent.answer[2] = 0));
        assert!(
            seen(|lent| lent.answer[..2].fill(0)) && seen(|lent| lent.work[0] = 0) && seen(|lent| lent.file[0] = 1)
        );
        assert!(seen(|lent| lent.header[0] = 0.0) && seen(|lent| lent.sheet.quads[0] = 0));
    }

    #[test]
    fn files_of_both_kinds_come_back() {
        let (file, old) = (job::write(&cube()), job::write_old(&cube()));
        assert!(comes_back(&file) && comes_back(&old) && is_longer(&file, &old));
        let mut wrong = file.clone();
        wrong[374] = 9;
        assert!(!comes_back(&wrong) && !comes_back(&file[..385]) && !is_longer(&file, &file));
    }

    /// The words of which trailers are made: starts of small files and near them, and lengths.
    const WORDS: [u32; 12] = [0, 20, 24, 63, 64, 65, 80, 88, 104, 128, u32::MAX - 23, u32::MAX];

    /// The number and the counts that a file is opened with, into room for eighty points, quads and labels.
    fn opened(file: &[u8]) -> (u32, [u64; 3]) {
        let (mut header, mut sheet, mut answer) = ([1.0; 8], filled(Room::of(80)), [9; 4]);
        let number = ffi::open_job(file, &mut header, sheet.as_sheet_out(), &mut [9; 80], &mut answer);
        (number, [answer[1], answer[2], answer[3]])
    }

    /// Asserts that a file is opened, and its sum read, as the model says; the number of opening.
    fn assert_as_the_model(file: &[u8]) -> u8 {
        let (expected, sum) = (job::opened(file, Room::of(80)), job::summed(file));
        assert_eq!(opened(file), (u32::from(expected.number), expected.counts.map(u64::from)), "{file:?}");
        let mut answer = [9; 2];
        assert_eq!(ffi::job_sum(file, &mut answer), u32::from(sum.number), "{file:?}");
        assert_eq!(answer, [u64::from(sum.counts[0]), sum.count], "{file:?}");
        expected.number
    }

    #[test]
    fn all_trailers_of_a_few_words_are_answered_as_the_model_says() {
        for bytes in [84, 85, 100, 108, 124, 148] {
            let (mut file, mut good) = (vec![7; bytes], 0);
            for code in 0..WORDS.len().pow(5) {
                (0..5).for_each(|i| files::put(&mut file, i, WORDS[code / WORDS.len().pow(i as u32) % WORDS.len()]));
                good += u32::from(assert_as_the_model(&file) == 0);
            }
            assert!(good > 0 || bytes == 85, "{bytes} bytes: {good}");
        }
    }

    /// The words of which trailers with a sum are made: starts of small files, sums, and lengths.
    const SUM_WORDS: [u32; 7] = [64, 0, 16, 20, 28, 80, 88];

    /// The trailer of a file with a sum by its code; a start of the points is one of the first two words.
    fn put_words(file: &mut [u8], code: usize) {
        let mut rest = code;
        for (which, words) in [2, 7, 7, 7, 7, 2, 7].into_iter().enumerate() {
            summed::put(file, which, SUM_WORDS[rest % words]);
            rest /= words;
        }
    }

    #[test]
    fn all_trailers_with_a_sum_of_a_few_words_are_answered_as_the_model_says() {
        for bytes in [84, 91, 92, 93, 108, 116] {
            let (mut file, mut seen) = (vec![7; bytes], BTreeSet::new());
            for code in 0..4 * 7_usize.pow(5) {
                put_words(&mut file, code);
                seen.insert(assert_as_the_model(&file));
            }
            let expected: &[u8] = match bytes {
                91 | 93 => &[14],
                84 => &[0, 14],
                _ => &[0, 14, 17],
            };
            assert!(seen.iter().eq(expected), "{bytes} bytes: {seen:?}");
        }
    }
}
