//! Random jobs to save, and job files without a sum to open, good and damaged. The stored sample is made of them: what
//! is new stands in `summed`.
use crate::call::Call;
use crate::job::{self, Job};
use crate::quads::QuadMesh;
use crate::random::Random;
use crate::{Point, drawn, floats, sheets};

/// A float of any bits: hostile, and one in four a NaN that signals.
fn float(r: &mut Random) -> f64 {
    if !r.one_in(4) {
        return floats::hostile(r);
    }
    let payload = (r.bits() >> (13 + r.below(51))).max(1);
    f64::from_bits(0x7ff0_0000_0000_0000 | payload | (r.bits() & (1 << 63)))
}

/// A point of such floats.
pub fn point(r: &mut Random) -> Point {
    std::array::from_fn(|_| float(r))
}

/// A few points, quads and labels of any numbers, each as many as it happens.
fn loose(r: &mut Random) -> QuadMesh {
    let counts: [usize; 3] = std::array::from_fn(|_| r.below(6));
    QuadMesh {
        points: (0..counts[0]).map(|_| point(r)).collect(),
        quads: (0..counts[1]).map(|_| std::array::from_fn(|_| r.bits() as u32 as usize)).collect(),
        labels: (0..counts[2]).map(|_| r.bits() as u8).collect(),
    }
}

/// Any sheet: as others are, or its points of any bits, or loose; labels more or fewer than quads among them.
fn sheet(r: &mut Random) -> QuadMesh {
    let mut sheet = match r.below(64) {
        0 => drawn::fresh(r).1,
        1..24 => loose(r),
        _ => sheets::any(r),
    };
    if r.one_in(2) {
        sheet.points.iter_mut().flatten().for_each(|x| *x = float(r));
    }
    match r.below(8) {
        0 => sheet.labels.truncate(r.below(sheet.labels.len() + 1)),
        1 => sheet.labels.extend((0..r.below(40)).map(|_| r.bits() as u8)),
        _ => (),
    }
    sheet
}

/// Any job.
pub fn job(r: &mut Random) -> Job {
    Job { header: std::array::from_fn(|_| float(r)), sheet: sheet(r) }
}

/// A number of elements that is enough, exactly or more, or too few.
pub fn about(r: &mut Random, needed: usize) -> usize {
    let few = [needed.saturating_sub(1), needed / 2, 0];
    let enough = [needed, needed, needed + 1, needed + 9, 2 * needed + 30];
    if r.one_in(4) { r.pick(&few) } else { r.pick(&enough) }
}

/// A call that saves any job.
pub fn saving(r: &mut Random) -> Call {
    let job = job(r);
    let needed = job::write(&job).len();
    job::save(job, about(r, needed))
}

/// A number of the trailer of a file without a sum, of which the first is number 0.
pub fn number(file: &[u8], which: usize) -> u32 {
    let at = file.len() - 20 + 4 * which;
    file[at..].first_chunk().map_or(0, |bytes| u32::from_le_bytes(*bytes))
}

/// Puts another number into the trailer.
pub fn put(file: &mut [u8], which: usize, number: u32) {
    let at = file.len() - 20 + 4 * which;
    file[at..at + 4].copy_from_slice(&number.to_le_bytes());
}

/// Lengths of a trailer that are none, among them those of other trailers.
const LENGTHS: [u32; 8] = [0, 16, 19, 21, 24, 28, 32, u32::MAX];

/// The steps by which a start is moved: by parts of elements, and by whole ones.
const STEPS: [i32; 10] = [1, -1, 16, -16, 24, -24, 48, -48, 8, -8];

/// Damages the end of a file: a start is moved or another, two numbers change places, the length is another, or bytes
/// are taken away or added. Some files are good nevertheless.
fn damage(r: &mut Random, file: &mut Vec<u8>) {
    let (which, other) = (r.below(4), r.below(5));
    let (start, another, any) = (number(file, which), number(file, other), r.bits() as u32);
    match r.below(8) {
        0..=2 => put(file, which, start.wrapping_add_signed(r.pick(&STEPS))),
        3 => put(file, which, r.pick(&[0, u32::MAX - 23, another, any])),
        4 => {
            put(file, which, another);
            put(file, other, start);
        }
        5 => put(file, 4, r.pick(&LENGTHS)),
        6 => file.truncate(file.len() - 1 - r.below(30)),
        _ => {
            let byte = r.pick(&[0, 20, 255]);
            file.extend(vec![byte; 1 + r.below(30)]);
        }
    }
}

/// A short file whose trailer is made of a few numbers.
fn tiny(r: &mut Random) -> Vec<u8> {
    let bytes = r.pick(&[0, 1, 20, 63, 64, 83, 84, 85, 100, 108, 124]);
    let mut file: Vec<u8> = (0..bytes).map(|_| r.bits() as u8).collect();
    if bytes >= 20 {
        let end = bytes as u32 - 20;
        put(&mut file, 4, r.pick(&[20, 20, 20, 24]));
        put(&mut file, 0, r.pick(&[64, 64, 64, 0]));
        (1..4).for_each(|start| put(&mut file, start, r.pick(&[64, 80, 88, end, end])));
    }
    file
}

/// Any file without a sum: of any job, as it is or damaged once or twice, or a short one.
fn file(r: &mut Random) -> Vec<u8> {
    if r.one_in(8) {
        return tiny(r);
    }
    let mut file = job::write_old(&job(r));
    for _ in 0..r.pick(&[0, 0, 0, 1, 1, 2]) {
        if file.len() > 50 {
            damage(r, &mut file);
        }
    }
    file
}

/// A call that opens any file without a sum, with room for its sheet, more, or less.
pub fn opening(r: &mut Random) -> Call {
    let file = file(r);
    opening_of(r, file)
}

/// A call that opens a file, with room for its sheet, more, or less.
pub fn opening_of(r: &mut Random, file: Vec<u8>) -> Call {
    let counts = job::read(&file).map_or([r.below(9); 3], |job| job::counts(&job.sheet));
    let room = about(r, counts.into_iter().fold(0, usize::max));
    job::open(file, room as u64)
}

#[cfg(test)]
mod tests {
    use super::*;

    /// Whether a float is a NaN that signals.
    fn signals(x: &f64) -> bool {
        x.is_nan() && x.to_bits() & (1 << 51) == 0
    }

    #[test]
    fn jobs_have_floats_of_every_kind_and_labels_of_any_number() {
        let mut r = Random::new(1);
        let jobs: Vec<Job> = (0..2000).map(|_| job(&mut r)).collect();
        let floats: Vec<f64> = jobs.iter().flat_map(|job| job.sheet.points.as_flattened()).copied().collect();
        assert!(floats.iter().filter(|x| signals(x)).count() > 1000);
        assert!(jobs.iter().flat_map(|job| &job.header).filter(|x| signals(x)).count() > 1000);
        assert!(floats.iter().any(|x| x.to_bits() == 1 << 63) && floats.iter().any(|x| x.is_infinite()));
        let labels = |is: fn(&QuadMesh) -> bool| jobs.iter().filter(|job| is(&job.sheet)).count();
        assert!(labels(|sheet| sheet.labels.len() > sheet.quads.len()) > 100);
        assert!(labels(|sheet| sheet.labels.len() < sheet.quads.len()) > 100);
        assert!(labels(|sheet| sheet.labels.iter().any(|&label| label > 7)) > 100);
        assert!(labels(|sheet| sheet.quads.iter().flatten().any(|&corner| corner > 1 << 31)) > 100);
    }

    #[test]
    fn damages_leave_some_files_good() {
        let mut r = Random::new(2);
        let mut good = [0; 2];
        for _ in 0..4000 {
            let mut file = job::write_old(&job(&mut r));
            damage(&mut r, &mut file);
            good[usize::from(job::read(&file).is_ok())] += 1;
        }
        assert!(good[0] > 3000 && good[1] > 100, "{good:?}");
    }

    #[test]
    fn short_files_are_good_and_not() {
        let mut r = Random::new(3);
        let good = (0..4000).filter(|_| job::read(&tiny(&mut r)).is_ok()).count();
        assert!((50..2000).contains(&good), "{good}");
    }
}
