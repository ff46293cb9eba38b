//! The job file: saved and opened to the same bits, and every file that is none is refused.
mod common;
use common::{bowl, cube, file_of, shell, unit_box, with_number, without_sum};
use quads::{Band, Cause, Counts, Job, LIMIT, Label, Refusal, Sheet, TrailerFault};

/// The cube's file, kept as it was saved before the sum was in it: later releases open it too.
const OLD_CUBE: &[u8; 378] = include_bytes!("cube.job");

/// The cube's file, kept as it was first saved with the sum.
const CUBE: &[u8; 386] = include_bytes!("cube-sum.job");

/// Both files.
const CUBES: [&[u8]; 2] = [OLD_CUBE, CUBE];

/// The job of the cube in the unit box.
fn cube_job() -> Job {
    Job::new(&unit_box(), cube())
}

/// The floats of a job as bits, its quads and its labels: two NaNs of the same bits are the same.
fn bits(job: &Job) -> (Vec<u64>, &[[u32; 4]], &[u8]) {
    let points = job.sheet.points.as_flattened();
    let floats = [&job.low[..], &job.high, &[job.lower, job.upper], points].concat();
    (floats.iter().map(|x| x.to_bits()).collect(), &job.sheet.quads, &job.sheet.labels)
}

/// Asserts that a job is saved as Rust lays it out, and that its file, and the one of before the sum, opens to the same
/// bits and is saved again as that file, byte for byte.
fn assert_kept(job: &Job) {
    let file = job.save().unwrap();
    assert!(file == file_of(job), "{:?}", job.sheet.counts());
    for saved in [&file, &without_sum(&file)] {
        let opened = Job::open(saved).unwrap();
        assert!(bits(&opened) == bits(job), "{:?}", job.sheet.counts());
        assert!(opened.save().unwrap() == file, "{:?}", job.sheet.counts());
    }
}

/// The refusal of a file.
fn refused(file: &[u8]) -> Refusal {
    Job::open(file).unwrap_err().refusal()
}

#[test]
fn the_cube_has_386_bytes() {
    assert_eq!(cube_job().save().unwrap(), CUBE);
    let starts = [0x40, 0, 0, 0, 0, 1, 0, 0, 0x60, 1, 0, 0, 0x66, 1, 0, 0];
    assert_eq!((&CUBE[358..374], &CUBE[374..]), (&starts[..], &[8, 0, 0, 0, 0, 0, 0, 0, 28, 0, 0, 0][..]));
    assert_eq!(Job::open(CUBE), Ok(cube_job()));
}

#[test]
fn the_cube_of_378_bytes_opens_and_is_saved_with_386() {
    let trailer = [0x40, 0, 0, 0, 0, 1, 0, 0, 0x60, 1, 0, 0, 0x66, 1, 0, 0, 0x14, 0, 0, 0];
    assert_eq!(OLD_CUBE[358..], trailer);
    let job = Job::open(OLD_CUBE).unwrap();
    assert_eq!((&job, job.save()), (&cube_job(), Ok(CUBE.to_vec())));
    assert_eq!((&OLD_CUBE[..374], without_sum(CUBE)), (&CUBE[..374], OLD_CUBE.to_vec()));
}

#[test]
fn the_sheet_of_nothing_has_92_bytes() {
    let file = Job::default().save().unwrap();
    assert_eq!((file.len(), &file[..64]), (92, &[0; 64][..]));
    let trailer = [64, 0, 0, 0, 64, 0, 0, 0, 64, 0, 0, 0, 64, 0, 0, 0, 0, 0, 0, 0, 0, 0, 0, 0, 28, 0, 0, 0];
    assert_eq!(file[64..], trailer);
    assert_eq!(Job::open(&file), Ok(Job::default()));
    let old = without_sum(&file);
    assert_eq!((old.len(), Job::open(&old)), (84, Ok(Job::default())));
}

#[test]
fn a_core_comes_back_through_its_clean_up() {
    for band in [shell(), bowl()] {
        let mut sheet = Sheet::extract_candidate(&band, 12).unwrap();
        assert_kept(&Job::new(&band, sheet.clone()));
        sheet.coarsen(&band, 4).unwrap();
        let job = Job::new(&band, sheet);
        assert_kept(&job);
        let opened = Job::open(&job.save().unwrap()).unwrap();
        assert_eq!(opened.sheet.quality(&opened.band(band.field)), job.sheet.quality(&band));
    }
}

/// Floats of every kind: signalling and quiet NaNs of both signs with payloads, infinities, zeros, subnormal ones.
const HARD: [u64; 16] = [
    0x7ff0_0000_0000_0001,
    0x7ff4_0000_0000_0000,
    0x7ff7_ffff_ffff_ffff,
    0xfff0_0000_0000_0001,
    0xfff5_5555_dead_beef,
    0x7ff8_0000_0000_0000,
    0x7ff8_0000_0000_0001,
    0xfff8_0000_0000_0000,
    0xffff_ffff_ffff_ffff,
    0x7ff0_0000_0000_0000,
    0xfff0_0000_0000_0000,
    0x8000_0000_0000_0000,
    0x0000_0000_0000_0001,
    0x800f_ffff_ffff_ffff,
    0x7fef_ffff_ffff_ffff,
    0x0123_4567_89ab_cdef,
];

#[test]
fn every_bit_of_every_float_is_kept() {
    for start in 0..HARD.len() {
        let hard = |place: usize| f64::from_bits(HARD[(start + place) % HARD.len()]);
        let job = Job {
            low: [hard(0), hard(1), hard(2)],
            high: [hard(3), hard(4), hard(5)],
            lower: hard(6),
            upper: hard(7),
            sheet: Sheet {
                points: (0..5).map(|n| [hard(3 * n), hard(3 * n + 1), hard(3 * n + 2)]).collect(),
                ..cube()
            },
        };
        assert_kept(&job);
        let opened = Job::open(&job.save().unwrap()).unwrap();
        assert_eq!(opened.low.map(f64::to_bits), [0, 1, 2].map(|place| hard(place).to_bits()));
        assert_eq!(opened.sheet.points[4][2].to_bits(), hard(14).to_bits());
    }
}

#[test]
fn nothing_is_asked_of_a_sheet() {
    let corners = vec![[u32::MAX, 8, 1 << 31, 0], [3, 3, 3, 3]];
    let sheets = [
        Sheet { labels: vec![0, 7, 8, 255], ..cube() },
        Sheet { labels: (0..=255).collect(), ..cube() },
        Sheet { labels: vec![], ..cube() },
        Sheet { quads: vec![], ..cube() },
        Sheet { points: vec![], ..cube() },
        Sheet { quads: corners, ..cube() },
        Sheet { points: vec![[f64::NAN; 3]], ..Sheet::default() },
        Sheet { quads: vec![[1, 2, 3, 4]], ..Sheet::default() },
        Sheet { labels: vec![9], ..Sheet::default() },
    ];
    for sheet in sheets {
        assert_kept(&Job { low: [1.0; 3], high: [-1.0; 3], lower: f64::NAN, upper: f64::NEG_INFINITY, sheet });
    }
}

#[test]
fn a_job_above_minus_infinity_opens_and_is_measured() {
    let band = Band { lower: f64::NEG_INFINITY, ..unit_box() };
    let job = Job::new(&band, cube());
    assert_kept(&job);
    let file = job.save().unwrap();
    assert_eq!((&file[48..56], Job::sum(&file)), (&f64::NEG_INFINITY.to_le_bytes()[..], Ok(Some(8))));
    assert_eq!((&file[..48], &file[56..]), (&CUBE[..48], &CUBE[56..]));
    for saved in [&file, &without_sum(&file)] {
        let Job { sheet, lower, .. } = Job::open(saved).unwrap();
        let opened = Job::open(saved).unwrap().band(band.field);
        assert_eq!((lower.to_bits(), opened), (f64::NEG_INFINITY.to_bits(), band));
        assert_eq!(sheet.quality(&opened), cube().quality(&unit_box()));
        assert_eq!(sheet.page(&opened), cube().page(&unit_box()));
        assert_eq!(sheet.corners_per_point(&opened), cube().corners_per_point(&unit_box()));
        let mut left = sheet.clone();
        let refused = left.regularize(&opened, 1).unwrap_err();
        let cause = Cause::Level { level: Label::Lower, value: f64::NEG_INFINITY };
        assert_eq!((refused.refusal(), refused.cause(), left), (Refusal::Box, Some(cause), sheet));
    }
}

#[test]
fn a_file_that_is_cut_is_refused() {
    for file in CUBES {
        for bytes in 0..file.len() {
            assert_eq!(refused(&file[..bytes]), Refusal::Trailer, "{bytes} bytes of {}", file.len());
        }
    }
}

#[test]
fn a_file_of_the_sum_20_has_its_older_file_in_front() {
    let mut sheet = cube();
    sheet.quads.pop();
    let file = Job { sheet, ..Job::default() }.save().unwrap();
    assert_eq!(Job::sum(&file), Ok(Some(20)));
    for bytes in (0..file.len()).filter(|&bytes| bytes != file.len() - 8) {
        assert_eq!(refused(&file[..bytes]), Refusal::Trailer, "{bytes} bytes of {}", file.len());
    }
    let older = &file[..file.len() - 8];
    assert_eq!((Job::sum(older), Job::open(older)), (Ok(None), Job::open(&file)));
}

/// Asserts that a file with such bytes behind it is refused, and that they are told.
fn assert_behind(file: &[u8], byte: u8, bytes: usize) {
    let longer = [file, &vec![byte; bytes]].concat();
    let expected = Cause::Trailer(TrailerFault::Behind { end: file.len(), bytes });
    assert_eq!(Job::open(&longer).unwrap_err().cause(), Some(expected), "{bytes} bytes of {byte}");
}

#[test]
fn bytes_behind_the_trailer_are_refused() {
    for file in CUBES {
        for byte in [0, 1, 20, 28, 64, 255] {
            (1..=30).for_each(|bytes| assert_behind(file, byte, bytes));
        }
        assert_eq!(refused(&[file, &file[358..]].concat()), Refusal::Trailer);
        assert_eq!(refused(&[file, file].concat()), Refusal::Trailer);
    }
    assert_eq!(refused(&[CUBE, &OLD_CUBE[358..]].concat()), Refusal::Trailer);
    assert_eq!(refused(&[&OLD_CUBE[..], &CUBE[358..]].concat()), Refusal::Trailer);
}

/// Numbers near another, and far from it.
fn others(start: u32) -> impl Iterator<Item = u32> {
    let near = [1, 16, 24].into_iter().flat_map(move |step| [start - step, start + step]);
    near.chain([0, u32::MAX - 23, u32::MAX])
}

#[test]
fn a_changed_start_is_refused() {
    for (place, start) in [64, 256, 352, 358_u32].into_iter().enumerate() {
        for number in others(start).filter(|&number| (place, number) != (2, 336)) {
            let numbers = CUBES.map(|file| refused(&with_number(file, place, number)));
            assert_eq!(numbers, [Refusal::Trailer; 2], "number {place} is {number}");
        }
    }
}

#[test]
fn a_quad_that_becomes_labels_is_seen_by_the_sum_alone() {
    let opened = Job::open(&with_number(OLD_CUBE, 2, 336)).map(|job| job.sheet.counts());
    assert_eq!(opened, Ok(Counts { points: 8, quads: 5, labels: 22 }));
    let refused = Job::open(&with_number(CUBE, 2, 336)).unwrap_err();
    assert_eq!((refused.refusal(), refused.cause()), (Refusal::Sum, Some(Cause::Sum { written: 8, sheet: 20 })));
}

#[test]
fn starts_that_change_places_are_refused() {
    for (file, length) in CUBES.into_iter().zip([20, 28]) {
        let numbers: [u32; 5] = [64, 256, 352, 358, length];
        for (i, j) in (0..5).flat_map(|i| (i + 1..5).map(move |j| (i, j))) {
            let file = with_number(&with_number(file, i, numbers[j]), j, numbers[i]);
            assert_eq!(refused(&file), Refusal::Trailer, "numbers {i} and {j} of {length}");
        }
    }
}

#[test]
fn another_length_of_the_trailer_is_refused() {
    for length in [0, 16, 19, 21, 24, 27, 29, 32, 36, 20 + 256, 28 + 256, 20 + 65536, u32::MAX] {
        let causes = CUBES.map(|file| Job::open(&with_number(file, 4, length)).unwrap_err().cause());
        assert_eq!(causes, [Some(Cause::Trailer(TrailerFault::Length(length))); 2]);
    }
}

#[test]
fn a_trailer_of_another_length_is_refused_where_all_else_fits() {
    for bytes in (0..60).filter(|bytes| ![0, 8].contains(bytes)) {
        let length = 20 + bytes as u32;
        let file = [&CUBE[..374], &vec![0; bytes], &length.to_le_bytes()].concat();
        let expected = Some(Cause::Trailer(TrailerFault::Length(length)));
        assert_eq!(Job::open(&file).unwrap_err().cause(), expected);
        assert_eq!(Job::sum(&file).unwrap_err().cause(), expected);
    }
}

#[test]
fn the_length_of_the_other_trailer_is_refused() {
    let cause = |file: &[u8]| Job::open(file).unwrap_err().cause();
    let start = |number| Some(Cause::Trailer(TrailerFault::Start(number)));
    assert_eq!(cause(&with_number(OLD_CUBE, 4, 28)), start(0x0302_0000));
    assert_eq!(cause(&with_number(CUBE, 4, 20)), start(352));
}

#[test]
fn a_trailer_of_28_bytes_needs_92() {
    let nothing = Job::default().save().unwrap();
    for bytes in 84..92 {
        let file = &nothing[92 - bytes..];
        assert_eq!(Job::open(file).unwrap_err().cause(), Some(Cause::Trailer(TrailerFault::Short(bytes))));
        assert_eq!(Job::sum(file).unwrap_err().cause(), Some(Cause::Trailer(TrailerFault::Short(bytes))));
    }
    assert!(Job::open(&nothing).is_ok());
}

/// Asserts that a sheet of so many elements, each taking so many bytes, is saved and opened up to the limit.
fn assert_limited(element: usize, sheet: impl Fn(usize) -> Sheet) {
    let job = |n: usize| Job { sheet: sheet(n), ..Job::default() };
    let most = job(LIMIT);
    let file = most.save().unwrap();
    assert!(file.len() == 92 + element * LIMIT && file == file_of(&most));
    assert!(Job::open(&file).unwrap() == most && Job::open(&without_sum(&file)).unwrap() == most);
    let (more, file) = (job(LIMIT + 1), file_of(&job(LIMIT + 1)));
    let saved = more.save().unwrap_err();
    let [opened, old] = [&file, &without_sum(&file)].map(|file| Job::open(file).unwrap_err());
    let cause = Some(Cause::Large(more.sheet.counts()));
    assert_eq!([saved, opened, old].map(|refused| (refused.refusal(), refused.cause())), [(Refusal::Large, cause); 3]);
}

#[test]
fn more_labels_than_the_limit_are_large() {
    assert_limited(1, |n| Sheet { labels: vec![7; n], ..Sheet::default() });
}

#[test]
fn more_quads_than_the_limit_are_large() {
    assert_limited(16, |n| Sheet { quads: vec![[1, 2, 3, 4]; n], ..Sheet::default() });
}

#[test]
fn more_points_than_the_limit_are_large() {
    assert_limited(24, |n| Sheet { points: vec![[0.5; 3]; n], ..Sheet::default() });
}

/// The bytes by which a start wraps round.
const FOUR_GIB: usize = 1 << 32;

#[test]
fn a_start_that_wraps_round_is_refused() {
    let bytes = FOUR_GIB + CUBE.len();
    if Vec::<u8>::new().try_reserve_exact(bytes).is_err() {
        println!("not tested: there is no room for a file of {bytes} bytes");
        return;
    }
    let mut file = vec![0; bytes];
    file[bytes - 28..].copy_from_slice(&CUBE[358..]);
    let cause = |length, bytes| Some(Cause::Trailer(TrailerFault::End { start: 358, length, bytes }));
    assert_eq!(Job::open(&file).unwrap_err().cause(), cause(28, bytes));
    assert_eq!(Job::sum(&file).unwrap_err().cause(), cause(28, bytes));
    file.truncate(bytes - 8);
    file[bytes - 28..].copy_from_slice(&OLD_CUBE[358..]);
    assert_eq!(Job::open(&file).unwrap_err().cause(), cause(20, bytes - 8));
}
