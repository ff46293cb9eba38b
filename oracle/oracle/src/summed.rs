//! Random jobs whose quads name few points again and again, and job files with a sum, good and damaged.
use crate::call::Call;
use crate::files;
use crate::job::{self, Job};
use crate::quads::QuadMesh;
use crate::random::Random;

/// A corner of a sheet with so many points: of one of them, of one just behind them, or any.
fn corner(r: &mut Random, points: usize) -> usize {
    match r.below(8) {
        0 => points + r.below(2),
        1 => r.bits() as u32 as usize,
        _ => r.below(points.max(1)),
    }
}

/// A sheet of few points and more quads, which name them again and again, some twice in a quad, and some that are not
/// there.
fn crowded(r: &mut Random) -> QuadMesh {
    let counts = [r.below(8), r.below(20), r.below(9)];
    QuadMesh {
        points: (0..counts[0]).map(|_| files::point(r)).collect(),
        quads: (0..counts[1]).map(|_| std::array::from_fn(|_| corner(r, counts[0]))).collect(),
        labels: (0..counts[2]).map(|_| r.bits() as u8).collect(),
    }
}

/// Any job, half of them crowded.
fn job(r: &mut Random) -> Job {
    let job = files::job(r);
    if r.one_in(2) { Job { sheet: crowded(r), ..job } } else { job }
}

/// A call that saves any job.
pub fn saving(r: &mut Random) -> Call {
    let job = job(r);
    let needed = job::bytes(job::counts(&job.sheet));
    job::save(job, files::about(r, needed))
}

/// A word of the trailer of a file with a sum, of which the first is word 0: four starts, two halves of the sum, and
/// the length.
pub fn word(file: &[u8], which: usize) -> u32 {
    let at = file.len() - 28 + 4 * which;
    file[at..].first_chunk().map_or(0, |bytes| u32::from_le_bytes(*bytes))
}

/// Puts another word into the trailer.
pub fn put(file: &mut [u8], which: usize, word: u32) {
    let at = file.len() - 28 + 4 * which;
    file[at..at + 4].copy_from_slice(&word.to_le_bytes());
}

/// Puts another sum into the trailer.
pub fn put_sum(file: &mut [u8], sum: u64) {
    put(file, 4, sum as u32);
    put(file, 5, (sum >> 32) as u32);
}

/// Damages the sum: a bit of one byte, one, 16 or 2^32 more or less, or zero. The last leaves it where it was zero.
fn damage_sum(r: &mut Random, file: &mut [u8]) {
    let sum = u64::from(word(file, 4)) | u64::from(word(file, 5)) << 32;
    let step = r.pick(&[1, 16, 1 << 32]);
    let damaged = match r.below(4) {
        0 => sum ^ 1 << r.below(64),
        1 => sum.wrapping_add(step),
        2 => sum.wrapping_sub(step),
        _ => 0,
    };
    put_sum(file, damaged);
}

/// Lengths of a trailer: that without a sum, and some that are none.
const LENGTHS: [u32; 10] = [20, 20, 24, 32, 36, 0, 27, 29, 28 + 256, u32::MAX];

/// The steps by which a start is moved: by parts of elements, and by whole ones.
const STEPS: [i32; 10] = [1, -1, 16, -16, 24, -24, 48, -48, 8, -8];

/// Damages a file with a sum: the sum, the length, a start that is moved or another word, two words that change places,
/// bytes that are taken away or added, or a byte in front of the trailer. Some files are good nevertheless.
fn damage(r: &mut Random, file: &mut Vec<u8>) {
    let (which, other, byte) = (r.below(4), r.below(7), r.below(file.len() - 28));
    let (start, another) = (word(file, which), word(file, other));
    match r.below(12) {
        0..=4 => damage_sum(r, file),
        5 => put(file, 6, r.pick(&LENGTHS)),
        6 => put(file, which, start.wrapping_add_signed(r.pick(&STEPS))),
        7 => put(file, which, r.pick(&[0, u32::MAX - 27, another])),
        8 => {
            put(file, which, another);
            put(file, other, start);
        }
        9 => file.truncate(file.len() - 1 - r.below(40)),
        10 => {
            let byte = r.pick(&[0, 20, 28, 255]);
            file.extend(vec![byte; 1 + r.below(40)]);
        }
        _ => file[byte] ^= 1 << r.below(8),
    }
}

/// A short file whose trailer is made of a few words.
fn tiny(r: &mut Random) -> Vec<u8> {
    let bytes = r.pick(&[0, 1, 28, 83, 84, 88, 91, 92, 93, 108, 116, 132]);
    let mut file: Vec<u8> = (0..bytes).map(|_| r.bits() as u8).collect();
    if bytes >= 28 {
        let end = bytes as u32 - 28;
        put(&mut file, 0, r.pick(&[64, 64, 64, 0]));
        (1..4).for_each(|start| put(&mut file, start, r.pick(&[64, 80, 88, end, end])));
        put_sum(&mut file, r.pick(&[0, 0, 16, 16, 32, 1 << 32]));
        put(&mut file, 6, r.pick(&[28, 28, 28, 20, 24]));
    }
    file
}

/// A file with a sum, damaged up to two times.
fn damaged(r: &mut Random, mut file: Vec<u8>) -> Vec<u8> {
    for _ in 0..r.pick(&[0, 0, 0, 1, 1, 2]) {
        if file.len() > 80 {
            damage(r, &mut file);
        }
    }
    file
}

/// A file with another length of its trailer.
fn with_length(mut file: Vec<u8>, length: u32) -> Vec<u8> {
    put(&mut file, 6, length);
    file
}

/// The file of a job with so many zeros in place of the sum. Its trailer would be good if one of that length were.
pub fn with_zeros(job: &Job, bytes: usize) -> Vec<u8> {
    let mut file = job::write_old(job);
    file.truncate(file.len() - 4);
    file.extend(vec![0; bytes]);
    file.extend((20 + bytes as u32).to_le_bytes());
    file
}

/// Any file: of any job, with a sum, damaged or not; with the length of the other trailer, without a sum, with a longer
/// or a shorter trailer, or short.
fn file(r: &mut Random) -> Vec<u8> {
    let job = job(r);
    match r.below(16) {
        0 => tiny(r),
        1 => with_length(job::write(&job), 20),
        2 => with_length(job::write_old(&job), 28),
        3 => job::write_old(&job),
        4 => with_zeros(&job, r.pick(&[1, 4, 4, 7, 9, 12, 16])),
        _ => damaged(r, job::write(&job)),
    }
}

/// A call that opens any file, with a sum or without one, with room for its sheet, more, or less.
pub fn opening(r: &mut Random) -> Call {
    if r.one_in(3) {
        return files::opening(r);
    }
    let file = file(r);
    files::opening_of(r, file)
}

/// A call that reads the sum of any file.
pub fn summing(r: &mut Random) -> Call {
    job::sum(opening(r).sheet.labels)
}

#[cfg(test)]
mod tests {
    use super::*;
    use crate::call::expected;
    use std::collections::BTreeMap;

    #[test]
    fn quads_name_points_often_and_points_that_are_not_there() {
        let mut r = Random::new(1);
        let jobs: Vec<Job> = (0..2000).map(|_| job(&mut r)).collect();
        let sheets = |is: fn(&QuadMesh) -> bool| jobs.iter().filter(|job| is(&job.sheet)).count();
        let far = |sheet: &QuadMesh| sheet.quads.iter().flatten().filter(|&&v| v >= sheet.points.len()).count();
        assert!(jobs.iter().filter(|job| far(&job.sheet) > 4).count() > 400);
        assert!(sheets(|sheet| sheet.quads.iter().any(|q| q[0] == q[1] && q[1] == q[2])) > 200);
        assert!(sheets(|sheet| sheet.points.is_empty() && !sheet.quads.is_empty()) > 50);
        assert!(sheets(|sheet| sheet.quads.iter().flatten().filter(|&&v| v == 0).count() > 8) > 200);
        assert!(sheets(|sheet| job::squared_sum(sheet) > 1000) > 20);
    }

    #[test]
    fn every_answer_occurs_often() {
        let (mut r, mut numbers) = (Random::new(2), BTreeMap::new());
        for _ in 0..6000 {
            let number = expected(&job::open(file(&mut r), 1 << 20)).number;
            *numbers.entry(number).or_insert(0) += 1;
        }
        assert!(numbers.keys().eq(&[0, 14, 17]) && numbers.values().all(|&calls| calls > 600), "{numbers:?}");
    }

    #[test]
    fn damages_leave_some_files_good() {
        let (mut r, mut numbers) = (Random::new(3), BTreeMap::new());
        for _ in 0..6000 {
            let mut file = job::write(&job(&mut r));
            damage(&mut r, &mut file);
            *numbers.entry(expected(&job::open(file, 1 << 20)).number).or_insert(0) += 1;
        }
        assert!(numbers.keys().eq(&[0, 14, 17]) && numbers.values().all(|&calls| calls > 300), "{numbers:?}");
    }

    #[test]
    fn short_files_are_good_and_not() {
        let mut r = Random::new(4);
        let mut good = [0; 2];
        for _ in 0..4000 {
            let answer = job::summed(&tiny(&mut r));
            good[0] += usize::from(answer.number == 0);
            good[1] += usize::from(answer.counts[0] == 1);
        }
        assert!(good[0] < 2000 && good[1] > 50, "{good:?}");
    }

    #[test]
    fn zeros_in_place_of_the_sum_are_a_sum_if_they_are_eight() {
        let job = Job { header: [0.5; 8], sheet: crate::sheets::torus(3, 3) };
        for bytes in 1..40 {
            let number = expected(&job::open(with_zeros(&job, bytes), 0)).number;
            assert_eq!(number, if bytes == 8 { 0 } else { 14 }, "{bytes}");
        }
        assert_eq!((with_zeros(&job, 0), with_zeros(&job, 8)), (job::write_old(&job), job::write(&job)));
    }

    #[test]
    fn sums_are_read_written_and_not() {
        let (mut r, mut seen) = (Random::new(5), BTreeMap::new());
        for _ in 0..4000 {
            let answer = expected(&summing(&mut r));
            *seen.entry((answer.number, answer.counts[0])).or_insert(0) += 1;
        }
        assert!(seen.keys().eq(&[(0, 0), (0, 1), (14, 0)]) && seen.values().all(|&calls| calls > 400), "{seen:?}");
    }
}
