//! The squared sum in the job file: what it counts, that another is refused, and that it is read without the sheet.
mod common;
use common::{bowl, cube, file_of, shell, squared_sum, unit_box, with_number, with_sum, without_sum};
use quads::{Cause, Job, LIMIT, Refusal, Sheet, TrailerFault};

/// The cube's file as it was saved before the sum was in it, and with the sum.
const OLD_CUBE: &[u8; 378] = include_bytes!("cube.job");
const CUBE: &[u8; 386] = include_bytes!("cube-sum.job");

/// The job of a sheet.
fn job(sheet: Sheet) -> Job {
    Job::new(&unit_box(), sheet)
}

/// Asserts that a sheet has this sum: in its file, read and opened, and once a file without a sum is saved again.
fn assert_sum(sheet: Sheet, sum: u64) {
    let file = job(sheet).save().unwrap();
    let written = &file[file.len() - 12..file.len() - 4];
    assert_eq!((written, Job::sum(&file)), (&sum.to_le_bytes()[..], Ok(Some(sum))));
    let opened = Job::open(&file).unwrap();
    assert!(opened.save().unwrap() == file);
    let old = without_sum(&file);
    assert_eq!(Job::sum(&old), Ok(None));
    assert!(Job::open(&old).unwrap().save().unwrap() == file);
}

#[test]
fn the_cube_has_8_and_the_cube_without_a_quad_20() {
    assert_sum(cube(), 8);
    assert_eq!((Job::sum(CUBE), Job::sum(OLD_CUBE)), (Ok(Some(8)), Ok(None)));
    assert_sum(Sheet { quads: cube().quads[..5].to_vec(), ..cube() }, 20);
    assert_sum(cube().refine().unwrap(), 8);
}

#[test]
fn a_point_that_two_quads_name_eight_times_adds_16() {
    assert_sum(Sheet { points: vec![[0.5; 3]], quads: vec![[0; 4]; 2], labels: vec![1, 1] }, 16);
    assert_sum(Sheet { points: vec![[0.5; 3]; 3], quads: vec![[1; 4]; 2], labels: vec![] }, 48);
    assert_sum(Sheet { points: vec![[0.5; 3]; 2], quads: vec![[0, 0, 0, 1]; 2], labels: vec![] }, 8);
    assert_sum(Sheet { points: vec![[0.5; 3]], quads: vec![[0; 4]], labels: vec![] }, 0);
}

#[test]
fn a_corner_that_names_no_point_counts_nowhere() {
    let far = vec![[5, 6, u32::MAX, 1 << 31]; 3];
    assert_sum(Sheet { points: vec![[0.5; 3]; 5], quads: far.clone(), labels: vec![] }, 16 * 5);
    assert_sum(Sheet { points: vec![], quads: far, labels: vec![0; 9] }, 0);
    assert_sum(Sheet { points: vec![], quads: vec![[0; 4]; 70], labels: vec![] }, 0);
    assert_sum(Sheet { points: vec![[0.5; 3]; 5], quads: vec![[4, 5, 4, 5]], labels: vec![] }, 16 * 4 + 4);
}

#[test]
fn labels_and_coordinates_play_no_part() {
    assert_sum(Sheet { labels: vec![], ..cube() }, 8);
    assert_sum(Sheet { labels: vec![255; 300], ..cube() }, 8);
    assert_sum(Sheet { points: vec![[f64::NAN; 3]; 8], ..cube() }, 8);
    assert_sum(Sheet { points: vec![[f64::NAN; 3]; 70], quads: vec![], labels: vec![] }, 16 * 70);
    assert_sum(Sheet::default(), 0);
}

#[test]
fn the_largest_sheet_has_the_largest_sum() {
    let sheet = Sheet { points: vec![[0.5; 3]; LIMIT], quads: vec![[0; 4]; LIMIT], labels: vec![7; LIMIT] };
    let sum = ((1_u64 << 22) - 4).pow(2) + 16 * ((1 << 20) - 1);
    let file = job(sheet.clone()).save().unwrap();
    assert_eq!((file.len(), Job::sum(&file)), (42_991_708, Ok(Some(sum))));
    assert!(Job::open(&file).unwrap().sheet == sheet);
    let refused = Job::open(&with_sum(&file, sum - (1 << 32))).unwrap_err();
    assert_eq!(refused.cause(), Some(Cause::Sum { written: sum - (1 << 32), sheet: sum }));
}

/// Asserts that a file is refused for its sum, which is told beside the sheet's, and that the sum is read nevertheless.
fn assert_refused(file: &[u8], written: u64, sheet: u64) {
    let refused = Job::open(file).unwrap_err();
    assert_eq!((refused.refusal(), refused.cause()), (Refusal::Sum, Some(Cause::Sum { written, sheet })));
    assert_eq!(Job::sum(file), Ok(Some(written)));
}

#[test]
fn every_byte_of_the_sum_is_compared() {
    for (byte, bit) in (0..8).flat_map(|byte| (0..8).map(move |bit| (byte, bit))) {
        let mut file = CUBE.to_vec();
        file[374 + byte] ^= 1 << bit;
        assert_refused(&file, 8 ^ 1 << (8 * byte + bit), 8);
    }
    for sum in [0, 7, 9, 24, 8 + (1 << 32), u64::MAX] {
        assert_refused(&with_sum(CUBE, sum), sum, 8);
    }
}

#[test]
fn a_changed_corner_is_seen_where_it_changes_the_sum() {
    let mut file = CUBE.to_vec();
    file[256] = 1;
    assert_refused(&file, 8, 10);
    file[256] = 8;
    assert_refused(&file, 8, 11);
    let swapped = Sheet { quads: cube().quads.into_iter().rev().collect(), ..cube() };
    let file = [&file_of(&job(swapped.clone()))[..374], &CUBE[374..]].concat();
    assert_eq!(Job::open(&file), Ok(job(swapped)));
}

#[test]
fn a_file_without_a_sum_is_not_refused_for_it() {
    let mut file = OLD_CUBE.to_vec();
    file[256] = 1;
    let opened = Job::open(&file).unwrap();
    assert_eq!((opened.sheet.quads[0], Job::sum(&file)), ([1, 4, 6, 2], Ok(None)));
    assert_eq!(Job::sum(&opened.save().unwrap()), Ok(Some(10)));
}

#[test]
fn the_sum_is_read_from_the_trailer_alone() {
    let far = Sheet { labels: vec![1; LIMIT + 1], ..cube() };
    let file = file_of(&job(far));
    assert_eq!((Job::open(&file).unwrap_err().refusal(), Job::sum(&file)), (Refusal::Large, Ok(Some(8))));
    assert_eq!(Job::sum(&without_sum(&file)), Ok(None));
    assert_eq!(Job::sum(&with_sum(CUBE, u64::MAX)), Ok(Some(u64::MAX)));
}

#[test]
fn the_sum_of_a_file_that_is_none_is_refused_as_opening_is() {
    let mut files: Vec<Vec<u8>> = (0..CUBE.len()).map(|bytes| CUBE[..bytes].to_vec()).collect();
    files.extend((0..OLD_CUBE.len()).map(|bytes| OLD_CUBE[..bytes].to_vec()));
    files.extend((0..5).flat_map(|place| [OLD_CUBE, &CUBE[..]].map(|file| with_number(file, place, 63))));
    files.extend([[CUBE, &[0][..]].concat(), [&OLD_CUBE[..], &[0; 8]].concat(), with_number(CUBE, 4, 20)]);
    for file in files {
        let refused = Job::sum(&file).unwrap_err();
        assert_eq!((refused.refusal(), Some(refused)), (Refusal::Trailer, Job::open(&file).err()));
    }
    let cause = Job::sum(&[]).unwrap_err().cause();
    assert_eq!(cause, Some(Cause::Trailer(TrailerFault::Short(0))));
}

#[test]
fn each_swap_lowers_the_saved_sum_by_two_or_more() {
    for band in [shell(), bowl()] {
        let mut job = Job::new(&band, Sheet::extract_candidate(&band, 10).unwrap());
        let sum_of = |job: &Job| Job::sum(&job.save().unwrap()).unwrap().unwrap();
        let before = sum_of(&job);
        assert_eq!(before, squared_sum(&job.sheet) as u64);
        let swaps = job.sheet.regularize(&band, 10).unwrap();
        assert!(swaps > 0 && sum_of(&job) + 2 * swaps as u64 <= before, "{before}, {swaps} swaps, {}", sum_of(&job));
        let left = sum_of(&job);
        assert_eq!((job.sheet.regularize(&band, 10), sum_of(&job)), (Ok(0), left));
    }
}
