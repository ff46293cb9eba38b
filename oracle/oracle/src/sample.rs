//! The stored sample: fixed cases first, then random ones of a seed.
use crate::bands::UNIT;
use crate::call::{Call, expected, lone};
use crate::field::{BandNumbers, Field};
use crate::job::{self, Job};
use crate::operation::Operation;
use crate::quads::{self, QuadMesh};
use crate::random::Random;
use crate::record::{Record, shortened};
use crate::{Point, crowds, drawn, files, inputs, patches, sheets, summed};

/// The seed of the sample that the repository holds.
pub const SEED: u64 = 2026;

/// How many random calls of each leaf function the sample holds.
const LEAVES: [(Operation, usize); 6] = [
    (Operation::Sqrt, 280),
    (Operation::Value, 200),
    (Operation::Gradient, 200),
    (Operation::Normal, 200),
    (Operation::Project, 400),
    (Operation::Validate, 80),
];

/// How many random sheets are tested.
const SHEETS: usize = 60;

/// How many random calls of each operation on a sheet the sample holds.
const OPERATIONS: [(Operation, usize); 3] =
    [(Operation::Refine, 40), (Operation::Subdivide, 80), (Operation::Quality, 60)];

/// The clean-ups and the rows.
const CLEANINGS: [Operation; 4] =
    [Operation::Regularize, Operation::ImproveLayout, Operation::Rows, Operation::Coarsen];

/// How many random sheets of each kind the sample holds for each of them: drawn, turned, opened, and any.
const CLEANED: [usize; 4] = [8, 12, 6, 20];

/// How many random drawings the sample holds: around a part of a ball, and any.
const DRAWINGS: [usize; 2] = [20, 50];

/// How many random small sheets the sample holds for corners per point.
const CORNERS: usize = 30;

/// How many random small sheets the sample holds for the page.
const PAGES: usize = 14;

/// How many random small jobs the sample holds for saving, and for opening.
const JOBS: usize = 5;

/// How many random files the sample holds for opening, and for reading the sum, since there is one.
const SUMS: usize = 8;

/// How many random crowded sheets the sample holds for each kind of swaps.
const CROWDS: usize = 8;

/// The most bytes of a file in the sample.
const MOST_BYTES: u64 = 2800;

/// The numbers of passes.
const PASSES: [u64; 5] = [0, 1, 2, 3, 1000];

/// The roots of document 01, of zeros, of limits and of what has no root.
const ROOTS: [f64; 20] = [
    4.0,
    2.0,
    3.0,
    1.0,
    0.1,
    0.0,
    -0.0,
    -1.0,
    -f64::MIN_POSITIVE,
    f64::NAN,
    f64::INFINITY,
    f64::NEG_INFINITY,
    f64::MAX,
    f64::MIN_POSITIVE,
    1.0 + f64::EPSILON,
    1.0 - f64::EPSILON / 2.0,
    4.0 - 2.0 * f64::EPSILON,
    5e-324,
    1e-323,
    1e-310,
];

/// A call and what is expected of it.
fn record(call: Call) -> Record {
    let answer = shortened(expected(&call));
    Record { call, answer }
}

/// A projection of a point by a mask.
fn projection(band: BandNumbers, mask: u8, point: Point) -> Call {
    Call { operation: Operation::Project, argument: u64::from(mask), band, sheet: lone(point) }
}

/// Projections by masks of every kind, onto a level, off the box, and where the field is flat.
fn projections() -> Vec<Call> {
    let plane = |numbers| BandNumbers { field: Field::Plane(numbers), ..UNIT };
    let deep = BandNumbers { levels: [f64::MIN, 0.16], ..UNIT };
    let masks = [0, 1, 2, 3, 4, 8, 12, 16, 32, 64, 128, 192, 5, 10, 21, 85, 86, 170, 255];
    let mut calls: Vec<Call> = masks.iter().map(|&mask| projection(UNIT, mask, [0.6, 0.7, 0.55])).collect();
    calls.extend([
        projection(UNIT, 1, [0.5; 3]),
        projection(UNIT, 1, [0.9, 0.5, 0.5]),
        projection(UNIT, 0, [1.0 + 1e-10, 0.5, 0.5]),
        projection(UNIT, 0, [1.0 + 2e-10, 0.5, 0.5]),
        projection(UNIT, 0, [f64::NAN, 0.5, 0.5]),
        projection(UNIT, 1, [0.5, f64::INFINITY, 0.5]),
        projection(deep, 2, [0.6, 0.7, 0.55]),
        projection(plane([0.0, 0.0, 0.0, 0.0]), 1, [0.5; 3]),
        projection(plane([f64::NAN, 1.0, 0.0, 0.0]), 1, [0.5; 3]),
        projection(plane([1e-320, 0.0, 0.0, 0.0]), 1, [0.5; 3]),
        projection(plane([1.0, 0.0, 0.0, 9.0]), 1, [0.5; 3]),
    ]);
    calls
}

/// The roots, the leaf functions and the tests of a band.
fn leaves(seed: u64) -> Vec<Record> {
    let mut r = Random::new(seed);
    let root = |x| Call { operation: Operation::Sqrt, argument: 0, band: UNIT, sheet: lone([x, 0.0, 0.0]) };
    let mut calls: Vec<Call> = ROOTS.map(root).to_vec();
    calls.extend(projections());
    for (operation, count) in LEAVES {
        calls.extend((0..count).map(|_| inputs::call(&mut r, operation)));
    }
    calls.into_iter().map(record).collect()
}

/// The cube with one thing changed, for each test of a lent sheet.
fn changed_cubes() -> Vec<QuadMesh> {
    let changes: [fn(&mut QuadMesh); 15] = [
        |_| (),
        |s| *s = sheets::empty(),
        |s| s.quads.clear(),
        |s| s.labels.truncate(5),
        |s| s.points[3][1] = f64::NAN,
        |s| s.points[7][2] = f64::NEG_INFINITY,
        |s| s.labels[2] = 8,
        |s| s.quads[5][3] = 8,
        |s| s.quads[5][3] = s.quads[5][0],
        |s| s.points.push([0.5; 3]),
        |s| s.labels[0] = 3,
        |s| s.labels[2] = 3,
        |s| s.labels = vec![0, 1, 0, 0, 0, 0],
        |s| s.labels.fill(0),
        |s| s.quads[0].reverse(),
    ];
    changes.iter().map(|change| changed(*change)).collect()
}

/// The cube after a change.
fn changed(change: fn(&mut QuadMesh)) -> QuadMesh {
    let mut sheet = sheets::cube();
    change(&mut sheet);
    sheet
}

/// Bands of which `validate` refuses all but the first; the second is taken where a sheet is measured.
fn changed_bands() -> [BandNumbers; 6] {
    [
        UNIT,
        above_minus_infinity(0.5),
        BandNumbers { levels: [0.5, 0.5], ..UNIT },
        BandNumbers { levels: [0.1, f64::INFINITY], ..UNIT },
        BandNumbers { bounds: [[0.0; 3], [0.0, 1.0, 1.0]], ..UNIT },
        BandNumbers { bounds: [[-1e154; 3], [1e154; 3]], ..UNIT },
    ]
}

/// The band between minus infinity and this level.
fn above_minus_infinity(upper: f64) -> BandNumbers {
    BandNumbers { levels: [f64::NEG_INFINITY, upper], ..UNIT }
}

/// The tests of a lent sheet.
fn constraints(seed: u64) -> Vec<Record> {
    let mut r = Random::new(seed);
    let operation = Operation::Constraints;
    let on = |band, sheet| Call { operation, argument: 0, band, sheet };
    let mut calls: Vec<Call> = changed_cubes().into_iter().map(|sheet| on(UNIT, sheet)).collect();
    calls.extend(changed_bands().map(|band| on(band, sheets::pillow())));
    calls.push(on(UNIT, sheets::poles(40)));
    calls.extend((0..SHEETS).map(|_| inputs::call(&mut r, operation)));
    calls.into_iter().map(record).collect()
}

/// Whether the replay takes a sheet: at most 64 points, quads and labels.
fn is_small(sheet: &QuadMesh) -> bool {
    [sheet.points.len(), sheet.quads.len(), sheet.labels.len()].iter().all(|&n| n <= 64)
}

/// Measures of a pillow, and of two pillows and two cubes at one point.
fn pinched() -> [Call; 3] {
    let of = |sheet| Call { operation: Operation::Quality, argument: 0, band: UNIT, sheet };
    [sheets::pillow(), sheets::pillows(), sheets::cubes()].map(of)
}

/// A cube on the upper level of a field without a direction, which `quality` refuses with 11.
fn flat() -> (BandNumbers, QuadMesh) {
    (BandNumbers { field: Field::Plane([0.0; 4]), ..UNIT }, changed(|s| s.labels.fill(0)))
}

/// The operations on the changed cubes and on random small sheets.
fn operations(seed: u64) -> Vec<Record> {
    let mut r = Random::new(seed);
    let (band, sheet) = flat();
    let mut calls = vec![Call { operation: Operation::Quality, argument: 0, band, sheet }];
    for (operation, count) in OPERATIONS {
        let on = |sheet| Call { operation, argument: 2, band: UNIT, sheet };
        calls.extend(changed_cubes().into_iter().map(on));
        let random = std::iter::repeat_with(|| inputs::call(&mut r, operation));
        calls.extend(random.filter(|call| is_small(&call.sheet)).take(count));
    }
    calls.extend(pinched());
    calls.into_iter().map(record).collect()
}

/// A drawn sheet or the patch of squares, some edges turned.
fn turned_sheet(r: &mut Random) -> (BandNumbers, QuadMesh) {
    let (band, mut sheet) = if r.one_in(2) { drawn::small(r) } else { (patches::BAND, patches::squares()) };
    for _ in 0..2 + r.below(6) {
        sheets::turn(r, &mut sheet);
    }
    (band, sheet)
}

/// A drawn sheet that is open.
fn opened_sheet(r: &mut Random) -> (BandNumbers, QuadMesh) {
    let (band, mut sheet) = drawn::small(r);
    sheets::open(r, &mut sheet);
    (band, sheet)
}

/// The changed cubes and bands, the starred patches, and two pillows at one point.
fn fixed_sheets() -> Vec<(BandNumbers, QuadMesh)> {
    let mut all: Vec<_> = changed_cubes().into_iter().map(|sheet| (UNIT, sheet)).collect();
    all.extend(changed_bands().map(|band| (band, sheets::pillow())));
    all.extend(patches::all().map(|sheet| (patches::BAND, sheet)));
    all.push((UNIT, sheets::pillows()));
    all
}

/// Random small sheets for an operation.
fn random_sheets(r: &mut Random, operation: Operation) -> Vec<(BandNumbers, QuadMesh)> {
    let [drawn, turned, opened, any] = CLEANED;
    let mut all: Vec<_> = (0..drawn).map(|_| drawn::small(r)).collect();
    all.extend((0..turned).map(|_| turned_sheet(r)));
    all.extend((0..opened).map(|_| opened_sheet(r)));
    let calls = std::iter::repeat_with(|| inputs::call(r, operation)).filter(|call| is_small(&call.sheet));
    all.extend(calls.take(any).map(|call| (call.band, call.sheet)));
    all
}

/// The clean-ups and the rows: one pass on the fixed sheets, several on the random ones.
fn cleanings(seed: u64) -> Vec<Record> {
    let mut r = Random::new(seed);
    let mut calls = vec![];
    for operation in CLEANINGS {
        let on = |(argument, (band, sheet))| Call { operation, argument, band, sheet };
        calls.extend(std::iter::repeat(1).zip(fixed_sheets()).map(on));
        calls.extend(PASSES.into_iter().cycle().zip(random_sheets(&mut r, operation)).map(on));
    }
    calls.into_iter().map(record).collect()
}

/// Whether the replay has room for a drawing: up to 384 points, 256 quads and 6 cells, or refused for its cells.
fn has_room(record: &Record) -> bool {
    let [points, quads, _] = record.answer.counts;
    points <= 384 && quads <= 256 && (record.call.argument <= 6 || record.answer.number == 3)
}

/// Drawings: around a shell at cells that the replay has room for or that are refused, of the changed bands, of a
/// field that is no number, of levels outside the box, then random ones.
fn drawings(seed: u64) -> Vec<Record> {
    let mut r = Random::new(seed);
    let operation = Operation::Extract;
    let of = |argument, band| Call { operation, argument, band, sheet: sheets::empty() };
    let mut calls: Vec<Call> = [0, 3, 4, 5, 6, 129].map(|cells| of(cells, UNIT)).to_vec();
    calls.extend(changed_bands().map(|band| of(4, band)));
    calls.push(of(4, BandNumbers { field: Field::Plane([f64::NAN, 0.0, 0.0, 0.0]), ..UNIT }));
    calls.push(of(4, BandNumbers { levels: [5.0, 6.0], ..UNIT }));
    calls.extend((0..DRAWINGS[0]).map(|_| of(4, drawn::small(&mut r).0)));
    let random = std::iter::repeat_with(|| record(inputs::call(&mut r, operation))).filter(has_room);
    calls.into_iter().map(record).chain(random.take(DRAWINGS[1])).collect()
}

/// Corners per point: of the changed cubes, of a pillow in the changed bands, of a field without a direction, of the
/// refined cube, of two pillows at one point, and of random small sheets.
fn corners(seed: u64) -> Vec<Record> {
    let mut r = Random::new(seed);
    let operation = Operation::Corners;
    let on = |(band, sheet)| Call { operation, argument: 0, band, sheet };
    let mut calls: Vec<Call> = changed_cubes().into_iter().map(|sheet| on((UNIT, sheet))).collect();
    calls.extend(changed_bands().map(|band| on((band, sheets::pillow()))));
    calls.push(on(flat()));
    calls.extend(quads::refine(&sheets::cube()).ok().map(|sheet| on((UNIT, sheet))));
    calls.push(on((UNIT, sheets::pillows())));
    let random = std::iter::repeat_with(|| inputs::call(&mut r, operation));
    calls.extend(random.filter(|call| is_small(&call.sheet)).take(CORNERS));
    calls.into_iter().map(record).collect()
}

/// As many quads as points, no two of which share an edge: each point is a corner of four of them, and all edges have
/// one quad.
fn loose(n: usize) -> QuadMesh {
    let at = |i: usize| i as f64 / n as f64;
    QuadMesh {
        points: (0..n).map(|i| [at(i), at(i) * at(i), 0.5]).collect(),
        quads: (0..n).map(|i| [0, 1, 3, 7].map(|step| (i + step) % n)).collect(),
        labels: vec![2; n],
    }
}

/// Pages: of the changed cubes, of a pillow in the changed bands, of a field without a direction, of counts of two and
/// three digits, of two pillows at one point, and of random small sheets.
fn pages(seed: u64) -> Vec<Record> {
    let mut r = Random::new(seed);
    let operation = Operation::Page;
    let on = |(band, sheet)| Call { operation, argument: 0, band, sheet };
    let mut calls: Vec<Call> = changed_cubes().into_iter().map(|sheet| on((UNIT, sheet))).collect();
    calls.extend(changed_bands().map(|band| on((band, sheets::pillow()))));
    calls.push(on(flat()));
    calls.extend(quads::refine(&sheets::cube()).ok().map(|sheet| on((UNIT, sheet))));
    calls.extend([sheets::poles(12), loose(64), sheets::pillows()].map(|sheet| on((UNIT, sheet))));
    let random = std::iter::repeat_with(|| inputs::call(&mut r, operation));
    calls.extend(random.filter(|call| is_small(&call.sheet)).take(PAGES));
    calls.into_iter().map(record).collect()
}

/// Floats of every kind: NaNs that signal and that do not, with payloads, infinities, zeros, a subnormal one.
const HARD: [u64; 8] = [
    0x7ff0_0000_0000_0001,
    0xfff7_ffff_ffff_ffff,
    0x7ff8_0000_0000_0000,
    0xffff_ffff_ffff_ffff,
    0x7ff0_0000_0000_0000,
    0xfff0_0000_0000_0000,
    0x8000_0000_0000_0000,
    0x0000_0000_0000_0001,
];

/// A sheet in the unit box, between two levels.
fn job(sheet: QuadMesh) -> Job {
    Job { header: [0.0, 0.0, 0.0, 1.0, 1.0, 1.0, 0.04, 0.16], sheet }
}

/// The jobs that are saved and opened: the cube, nothing, hard floats, labels more and fewer than quads and above 7,
/// corners out of range, and as much as the replay has room for.
fn fixed_jobs() -> [Job; 7] {
    let hard = HARD.map(f64::from_bits);
    let points = (0..8).map(|i| [hard[i], hard[(i + 3) % 8], hard[(i + 5) % 8]]).collect();
    let most = QuadMesh { points: vec![[0.1, 0.2, 0.3]; 64], quads: vec![[0, 1, 2, 63]; 64], labels: vec![7; 64] };
    [
        job(sheets::cube()),
        job(sheets::empty()),
        Job { header: hard, sheet: QuadMesh { points, ..sheets::cube() } },
        job(changed(|s| s.labels.extend([8, 9, 255, 0, 1]))),
        job(changed(|s| s.labels.truncate(1))),
        job(changed(|s| s.quads[5] = [8, 9, u32::MAX as usize, 8])),
        job(most),
    ]
}

/// The cube's file without a sum, with a number of its trailer changed.
fn with_number(which: usize, number: u32) -> Vec<u8> {
    let mut file = job::write_old(&job(sheets::cube()));
    files::put(&mut file, which, number);
    file
}

/// Files without a sum of which all but the first two are refused with 14: the cube's with a number changed, cut, and
/// with bytes behind it.
fn changed_files() -> Vec<Vec<u8>> {
    let file = with_number(4, 20);
    let numbers = [(2, 336), (0, 63), (0, 0), (1, 257), (1, 40), (2, 353), (2, 240), (3, 359), (3, 351), (4, 28)];
    let mut all = vec![file.clone()];
    all.extend(numbers.map(|(which, number)| with_number(which, number)));
    all.extend([0, 20, 83, 84, 358, 377].map(|bytes| file[..bytes].to_vec()));
    all.extend([1, 20].map(|bytes| [&file[..], &vec![0; bytes]].concat()));
    all
}

/// Jobs of more than the replay has room for: a point, a quad and a label more.
fn large_jobs() -> [Job; 3] {
    let sheets: [fn(&mut QuadMesh); 3] =
        [|s| s.points.resize(65, [0.5; 3]), |s| s.quads.resize(65, [0, 1, 2, 3]), |s| s.labels.resize(65, 1)];
    sheets.map(|change| job(changed(change)))
}

/// Whether the replay has room for a call on a job: its file is short, and a sheet that it saves is small.
fn is_small_job(call: &Call) -> bool {
    match call.operation {
        Operation::Save => is_small(&call.sheet) && call.argument <= MOST_BYTES,
        _ => call.sheet.labels.len() as u64 <= MOST_BYTES,
    }
}

/// Jobs that are saved, into as many bytes as the file needs, into more, and into one less; then files without a sum
/// that are opened; of each kind random ones too.
fn jobs(seed: u64) -> Vec<Record> {
    let mut r = Random::new(seed);
    let needed = |job: &Job| job::write(job).len();
    let save = |more: usize, less: usize, job: Job| job::save(job.clone(), needed(&job) + more - less);
    let mut calls: Vec<Call> = fixed_jobs().map(|job| save(0, 0, job)).to_vec();
    calls.extend([(9, 0), (0, 1)].map(|(more, less)| save(more, less, job(sheets::cube()))));
    calls.extend([save(0, 92, job(sheets::empty())), save(0, 1, job(sheets::empty()))]);
    let saves = std::iter::repeat_with(|| files::saving(&mut r)).filter(is_small_job);
    calls.extend(saves.take(JOBS));
    let open = |file| job::open(file, 0);
    calls.extend(fixed_jobs().map(|job| open(job::write_old(&job))));
    calls.extend(changed_files().into_iter().chain(large_jobs().map(|job| job::write_old(&job))).map(open));
    let opens = std::iter::repeat_with(|| open(files::opening(&mut r).sheet.labels)).filter(is_small_job);
    calls.extend(opens.take(JOBS));
    calls.into_iter().map(record).collect()
}

/// Jobs whose sums are seen at once: of a point that two quads name eight times, of corners that name no point, of
/// quads without a point, and of a point that all quads name, as many as the replay has room for.
fn crowded_jobs() -> [Job; 4] {
    let of = |points: usize, quads: Vec<[usize; 4]>| {
        job(QuadMesh { points: vec![[0.5; 3]; points], labels: vec![1; quads.len()], quads })
    };
    [
        of(1, vec![[0; 4]; 2]),
        of(5, vec![[5, 6, u32::MAX as usize, 1 << 31]; 3]),
        of(0, vec![[0, 1, 2, 3]; 3]),
        of(64, vec![[63; 4]; 64]),
    ]
}

/// The cube's file with another sum.
fn with_sum(sum: u64) -> Vec<u8> {
    let mut file = job::write(&job(sheets::cube()));
    summed::put_sum(&mut file, sum);
    file
}

/// The cube's file with a word of its trailer changed.
fn with_word(which: usize, word: u32) -> Vec<u8> {
    let mut file = with_sum(8);
    summed::put(&mut file, which, word);
    file
}

/// Files of the cube with a sum that is not their sheet's: each byte of it changed, one, 16 and 2^32 more, zero, a quad
/// that became labels, and a corner changed.
fn false_files() -> Vec<Vec<u8>> {
    let mut all: Vec<Vec<u8>> = (0..8).map(|byte| with_sum(8 ^ 1 << (8 * byte + 7))).collect();
    all.extend([9, 24, 8 + (1 << 32), 0].map(with_sum));
    all.push(with_word(2, 336));
    let mut corner = with_sum(8);
    corner[256] = 1;
    all.push(corner);
    all
}

/// Files of the cube with a sum that are refused with 14: with a word of the trailer changed, cut, with bytes behind
/// it, with too few bytes in front of the trailer, and with a trailer of 24 and of 32 bytes.
fn broken_files() -> Vec<Vec<u8>> {
    let file = with_sum(8);
    let words = [(6, 20), (6, 24), (6, 32), (6, 36), (0, 63), (1, 257), (1, 40), (2, 353), (3, 359), (3, 351)];
    let mut all = words.map(|(which, word)| with_word(which, word)).to_vec();
    all.extend([92, 378, 385].map(|bytes| file[..bytes].to_vec()));
    all.extend([1, 28].map(|bytes| [&file[..], &vec![0; bytes]].concat()));
    all.extend([84, 91].map(|bytes| file[file.len() - bytes..].to_vec()));
    all.extend([4, 12].map(|bytes| summed::with_zeros(&job(sheets::cube()), bytes)));
    all
}

/// What came with the sum: jobs that are saved whose sums are seen at once; files with a sum that are opened, and some
/// of the same jobs without one; and sums that are read; of each of the last two kinds random ones too.
fn sums(seed: u64) -> Vec<Record> {
    let mut r = Random::new(seed);
    let mut calls: Vec<Call> = crowded_jobs().map(|job| job::save(job.clone(), job::write(&job).len())).to_vec();
    let good: Vec<Vec<u8>> = fixed_jobs().iter().chain(&crowded_jobs()).map(job::write).collect();
    let old: Vec<Vec<u8>> = crowded_jobs()[..3].iter().map(job::write_old).collect();
    let mut large = large_jobs().map(|job| job::write(&job)).to_vec();
    large.push([&large[0][..large[0].len() - 12], &[255, 0, 0, 0, 0, 0, 0, 0, 28, 0, 0, 0]].concat());
    let opened = [&good[..], &old, &false_files(), &broken_files(), &large].concat();
    calls.extend(opened.into_iter().map(|file| job::open(file, 0)));
    let opens = std::iter::repeat_with(|| job::open(summed::opening(&mut r).sheet.labels, 0)).filter(is_small_job);
    calls.extend(opens.take(SUMS));
    let plain = [with_number(4, 20), job::write_old(&job(sheets::empty()))];
    let read = [&good[..6], &good[7..], &plain, &false_files()[6..12], &broken_files(), &[with_sum(u64::MAX)]].concat();
    calls.extend(read.into_iter().map(job::sum));
    let sums = std::iter::repeat_with(|| summed::summing(&mut r)).filter(is_small_job);
    calls.extend(sums.take(SUMS));
    calls.into_iter().map(record).collect()
}

/// Every operation that takes a band, and the two tests, on the cube above minus infinity: with passes and without,
/// drawn with cells that are allowed and with some that are not. What measures takes it, and `coarsen` without a pass.
fn on_bottomless_cube() -> [Call; 15] {
    let calls = [
        (Operation::Subdivide, 0),
        (Operation::Rows, 0),
        (Operation::Regularize, 0),
        (Operation::Regularize, 1),
        (Operation::ImproveLayout, 0),
        (Operation::ImproveLayout, 1),
        (Operation::Coarsen, 0),
        (Operation::Coarsen, 1),
        (Operation::Extract, 4),
        (Operation::Extract, 3),
        (Operation::Quality, 0),
        (Operation::Corners, 0),
        (Operation::Page, 0),
        (Operation::Constraints, 0),
        (Operation::Validate, 0),
    ];
    let band = above_minus_infinity(0.16);
    calls.map(|(operation, argument)| Call { operation, argument, band, sheet: lent_to(operation, sheets::cube()) })
}

/// The sheet that is lent to an operation: none to one that draws, and none to the tests of a band.
fn lent_to(operation: Operation, sheet: QuadMesh) -> QuadMesh {
    match operation {
        Operation::Extract | Operation::Validate => sheets::empty(),
        _ => sheet,
    }
}

/// Sheets that are refused with 5, 6 and 7, in a band above minus infinity, which is refused before them, but not by
/// `quality`; and `coarsen` without a pass, which looks at neither.
fn bottomless_and_damaged() -> Vec<Call> {
    let operations = [
        Operation::Subdivide,
        Operation::Rows,
        Operation::Regularize,
        Operation::ImproveLayout,
        Operation::Coarsen,
        Operation::Constraints,
        Operation::Quality,
    ];
    let damages: [fn(&mut QuadMesh); 3] = [|s| *s = sheets::empty(), |s| s.quads[5][3] = 8, |s| s.labels[2] = 3];
    let on =
        |operation, damage| Call { operation, argument: 1, band: above_minus_infinity(0.16), sheet: changed(damage) };
    let mut calls: Vec<Call> =
        operations.into_iter().flat_map(|operation| damages.map(|damage| on(operation, damage))).collect();
    calls.push(Call { argument: 0, ..on(Operation::Coarsen, damages[1]) });
    calls
}

/// Other levels that are not finite: a lower one that is a NaN or infinity, and an upper one.
fn of_no_level() -> [Call; 7] {
    let signals = f64::from_bits(0x7ff0_0000_0000_0001);
    let calls = [
        (Operation::Regularize, 1, [f64::NAN, 0.16]),
        (Operation::Subdivide, 0, [f64::INFINITY, 0.16]),
        (Operation::Rows, 0, [0.04, f64::INFINITY]),
        (Operation::Extract, 4, [signals, 0.16]),
        (Operation::Coarsen, 0, [f64::NAN, f64::NEG_INFINITY]),
        (Operation::Quality, 0, [f64::INFINITY, 0.16]),
        (Operation::Page, 0, [f64::NEG_INFINITY, f64::INFINITY]),
    ];
    calls.map(|(operation, argument, levels)| {
        let sheet = lent_to(operation, sheets::cube());
        Call { operation, argument, band: BandNumbers { levels, ..UNIT }, sheet }
    })
}

/// The cube's job above minus infinity: saved, opened, and its sum read.
fn bottomless_job() -> [Call; 3] {
    let job = Job { header: job::header(&above_minus_infinity(0.16)), sheet: sheets::cube() };
    let file = job::write(&job);
    [job::save(job, file.len()), job::open(file.clone(), 0), job::sum(file)]
}

/// What came when levels that are not finite were refused.
fn bottomless() -> Vec<Record> {
    let mut calls = on_bottomless_cube().to_vec();
    calls.extend(bottomless_and_damaged());
    calls.extend(of_no_level());
    calls.extend(bottomless_job());
    calls.into_iter().map(record).collect()
}

/// Swaps on crowded sheets: of so many quads, all of which share a point once the first edge is swapped, and random
/// ones with several passes.
fn crowded_sheets(seed: u64) -> Vec<Record> {
    let mut r = Random::new(seed);
    let sizes = [2, 3, 4, 5, 9, 64];
    let mut calls = vec![];
    for operation in [Operation::Regularize, Operation::ImproveLayout] {
        calls.extend(sizes.map(|quads| crowds::at(operation, 1, crowds::crowded(quads))));
        let random =
            std::iter::repeat_with(|| crowds::call(&mut r, operation)).filter(|call| call.sheet.quads.len() <= 24);
        calls.extend(random.take(CROWDS));
    }
    calls.into_iter().map(record).collect()
}

/// The sample of a seed. What is new stands behind, so that the records before it keep their places.
pub fn records(seed: u64) -> Vec<Record> {
    let mut records = leaves(seed);
    records.extend(constraints(seed));
    records.extend(operations(seed));
    records.extend(cleanings(seed));
    records.extend(drawings(seed));
    records.extend(corners(seed));
    records.extend(pages(seed));
    records.extend(jobs(seed));
    records.extend(sums(seed));
    records.extend(bottomless());
    records.extend(crowded_sheets(seed));
    records
}

#[cfg(test)]
mod tests {
    use super::*;
    use crate::call::{Answer, TIGHT};
    use crate::{levels, record, rings};
    use std::collections::BTreeSet;

    /// The operations and numbers that occur.
    fn seen(records: &[Record]) -> BTreeSet<(Operation, u8)> {
        records.iter().map(|record| (record.call.operation, record.answer.number)).collect()
    }

    #[test]
    fn every_answer_occurs() {
        use Operation::*;
        let leaf = [(Sqrt, 0), (Value, 0), (Gradient, 0), (Normal, 0), (Project, 0), (Project, 9)];
        let tests = [(Validate, 0), (Validate, 1)];
        let sheet = [0, 1, 5, 6, 7].map(|number| (Constraints, number));
        let refine = [0, 5, 6].map(|number| (Refine, number));
        let subdivide = [0, 1, 5, 6, 7, 8, 9].map(|number| (Subdivide, number));
        let quality = [0, 1, 5, 6, 7, 11].map(|number| (Quality, number));
        let regularize = [0, 1, 5, 6, 7].map(|number| (Regularize, number));
        let improve = [0, 1, 5, 6, 7].map(|number| (ImproveLayout, number));
        let coarsen = [0, 1, 5, 6, 7].map(|number| (Coarsen, number));
        let rows = [0, 1, 5, 6, 7, 8, 10].map(|number| (Rows, number));
        let drawn = [0, 1, 3, 4, 5, 7].map(|number| (Extract, number));
        let corners = [0, 1, 5, 6, 7].map(|number| (Corners, number));
        let pages = [0, 1, 5, 6, 7, 11].map(|number| (Page, number));
        let jobs = [(Save, 0), (Save, 13), (Open, 0), (Open, 13), (Open, 14), (Open, 17), (Sum, 0), (Sum, 14)];
        let measured = refine.into_iter().chain(subdivide).chain(quality).chain(corners).chain(pages);
        let cleaned = regularize.into_iter().chain(improve).chain(coarsen).chain(rows).chain(drawn);
        let occur = leaf.into_iter().chain(tests).chain(sheet).chain(measured).chain(cleaned).chain(jobs).collect();
        assert_eq!(seen(&records(SEED)), occur);
    }

    /// Whether an answer of `quality` says tight, and its bad links.
    fn tight_and_links(answer: &Answer) -> (bool, u64) {
        (answer.flags & TIGHT != 0, answer.words[5])
    }

    #[test]
    fn two_parts_at_one_point_are_not_tight() {
        let answers = pinched().map(|call| tight_and_links(&expected(&call)));
        assert_eq!(answers, [(true, 0), (false, 1), (false, 1)]);
    }

    #[test]
    fn tight_and_pinched_sheets_are_measured() {
        let measures = operations(SEED).into_iter().filter(|record| record.call.operation == Operation::Quality);
        let closed = measures.filter(|record| record.answer.number == 0 && rings::is_closed(&record.call.sheet));
        let (tight, pinched): (Vec<_>, Vec<_>) = closed.map(|r| tight_and_links(&r.answer)).partition(|found| found.0);
        assert!(tight.len() > 10 && tight.iter().all(|found| found.1 == 0));
        assert!(pinched.len() > 4 && pinched.iter().all(|found| found.1 > 0));
    }

    #[test]
    fn swaps_and_merges_of_several_passes_occur() {
        for operation in [Operation::Regularize, Operation::ImproveLayout, Operation::Coarsen] {
            let records = cleanings(SEED).into_iter().filter(|record| record.call.operation == operation);
            let counts: Vec<u64> = records.map(|record| record.answer.count).collect();
            assert!(counts.iter().filter(|&&count| count > 0).count() > 10);
            assert!(counts.iter().any(|&count| count > 2));
        }
    }

    #[test]
    fn the_replay_has_room_for_every_result() {
        for record in records(SEED) {
            let [points, quads, labels] = record.answer.counts;
            assert!(points <= 384 && quads <= 256 && labels <= 256);
            assert!(8 * record::encode(&record).len() <= 8192);
        }
    }

    #[test]
    fn corners_per_point_then_pages_jobs_sums_levels_and_crowds_stand_last() {
        let last = [bottomless(), crowded_sheets(SEED)].concat();
        let new = [corners(SEED), pages(SEED), jobs(SEED), sums(SEED), last].concat();
        let records = records(SEED);
        let (before, last) = records.split_at(records.len() - new.len());
        let operations = [Operation::Corners, Operation::Page, Operation::Save, Operation::Open, Operation::Sum];
        assert!(!before.iter().any(|record| operations.contains(&record.call.operation)));
        assert_eq!(record::file(last), record::file(&new));
    }

    #[test]
    fn jobs_have_their_numbers() {
        let jobs = jobs(SEED);
        let saves = jobs.iter().filter(|record| record.call.operation == Operation::Save).count();
        let numbers: Vec<u8> = jobs.iter().map(|record| record.answer.number).collect();
        assert_eq!((saves, jobs.len()), (11 + JOBS, 11 + 29 + 2 * JOBS));
        assert_eq!(numbers[..11], [0, 0, 0, 0, 0, 0, 0, 0, 13, 13, 13]);
        let opens = &numbers[saves..];
        assert_eq!((&opens[..9], &opens[9..26], &opens[26..29]), (&[0; 9][..], &[14; 17][..], &[13; 3][..]));
    }

    /// The numbers of the records of an operation among those that came with the sum.
    fn numbers_of(operation: Operation) -> Vec<u8> {
        let sums = sums(SEED).into_iter().filter(|record| record.call.operation == operation);
        sums.map(|record| record.answer.number).collect()
    }

    #[test]
    fn what_came_with_the_sum_has_its_numbers() {
        assert_eq!(numbers_of(Operation::Save), [0; 4]);
        let opens = [&[0; 14][..], &[17; 14], &[14; 19], &[13; 4]].concat();
        assert!(numbers_of(Operation::Open).starts_with(&opens));
        assert_eq!(numbers_of(Operation::Open).len(), opens.len() + SUMS);
        let reads = [&[0; 18][..], &[14; 19], &[0]].concat();
        assert!(numbers_of(Operation::Sum).starts_with(&reads));
        assert_eq!(numbers_of(Operation::Sum).len(), reads.len() + SUMS);
        assert_eq!(sums(SEED).len(), 4 + 51 + 38 + 2 * SUMS);
    }

    #[test]
    fn levels_that_are_not_finite_have_their_numbers() {
        let numbers: Vec<u8> = bottomless().iter().map(|record| record.answer.number).collect();
        assert_eq!(numbers[..15], [1, 1, 1, 1, 1, 1, 0, 1, 1, 1, 0, 0, 0, 1, 1]);
        assert_eq!(numbers[15..37], [&[1; 18][..], &[5, 6, 7, 0]].concat());
        assert_eq!(numbers[37..44], [1, 1, 1, 1, 0, 1, 1]);
        assert_eq!(numbers[44..], [0, 0, 0]);
    }

    #[test]
    fn swaps_at_a_point_of_all_quads_are_stored() {
        let all = crowded_sheets(SEED);
        let counts: Vec<u64> = all.iter().map(|record| record.answer.count).collect();
        let each = 6 + CROWDS;
        assert_eq!((counts.len(), &counts[..6]), (2 * each, &[0, 1, 1, 1, 1, 1][..]));
        assert_eq!(counts[each..each + 6], [1; 6]);
        assert!(all.iter().any(|record| record.answer.number != 0));
    }

    #[test]
    fn no_record_at_a_point_has_a_level_that_is_not_finite() {
        let at_point = [Operation::Project, Operation::Value, Operation::Gradient, Operation::Normal];
        let records = records(SEED).into_iter().filter(|record| at_point.contains(&record.call.operation));
        assert!(records.map(|record| record.call.band).all(|band| levels::are_finite(&band)));
    }

    #[test]
    fn what_is_accepted_above_minus_infinity_is_as_above_a_finite_level() {
        for Record { call, answer } in bottomless().into_iter().filter(|record| record.answer.number == 0) {
            if !call.operation.is_of_a_job() {
                assert_eq!(answer, expected(&Call { band: UNIT, ..call }));
            }
        }
    }

    #[test]
    fn sums_that_are_read_are_those_that_are_written() {
        let sums = sums(SEED).into_iter().filter(|record| record.call.operation == Operation::Sum);
        let read: Vec<(u64, [u32; 3])> = sums.map(|record| (record.answer.count, record.answer.counts)).collect();
        let crowded = [(16, [1, 0, 0]), (80, [1, 0, 0]), (0, [1, 0, 0]), (252 * 252 + 63 * 16, [1, 0, 0])];
        assert_eq!((read[0], &read[6..10], &read[10..12]), ((8, [1, 0, 0]), &crowded[..], &[(0, [0; 3]); 2][..]));
        assert_eq!(read[37], (u64::MAX, [1, 0, 0]));
    }

    #[test]
    fn jobs_are_small_and_stored_whole() {
        let saved = bottomless().into_iter().filter(|record| record.call.operation.is_of_a_job());
        for Record { call, answer } in jobs(SEED).into_iter().chain(sums(SEED)).chain(saved) {
            let is_save = call.operation == Operation::Save;
            let bytes = if is_save { answer.count } else { call.sheet.labels.len() as u64 };
            assert!(bytes <= MOST_BYTES && answer.counts.iter().all(|&n| n <= 64) && answer.flags == 0);
            assert!(if is_save { call.argument <= MOST_BYTES } else { call.argument == 0 });
        }
    }

    #[test]
    fn what_is_stored_as_saved_opens() {
        let jobs = [jobs(SEED), sums(SEED), bottomless()].concat();
        let saved = jobs.into_iter().filter(|record| record.call.operation == Operation::Save);
        for Record { call, answer } in saved.filter(|record| record.answer.number == 0) {
            let mut file: Vec<u8> = answer.words.iter().flat_map(|word| word.to_le_bytes()).collect();
            file.truncate(answer.count as usize);
            assert_eq!(expected(&job::open(file, 0)), Answer::job(&job::of(&call)));
        }
    }

    /// The text of an answer.
    fn text(answer: &Answer) -> String {
        String::from_utf8(answer.words.iter().flat_map(|word| word.to_le_bytes()).collect()).unwrap()
    }

    #[test]
    fn pages_have_their_text() {
        let pages = pages(SEED);
        assert_eq!(pages.len(), 26 + PAGES);
        assert!(pages.iter().all(|record| record.answer.words.len() == if record.answer.number == 0 { 41 } else { 0 }));
        let line = |place: usize, line: usize| text(&pages[place].answer).lines().nth(line).map(String::from);
        let known = [(0, 0, "quads", 6), (22, 0, "quads", 24), (23, 1, "irregular", 14), (24, 2, "boundary", 256)];
        for (place, at, name, count) in known {
            assert_eq!(line(place, at), Some(format!("{name:<24}{count:>16}")));
        }
    }

    #[test]
    fn corners_per_point_have_their_words() {
        let words: Vec<Vec<u64>> = corners(SEED).into_iter().map(|record| record.answer.words).collect();
        let known = [0, 15, 21, 22, 23].map(|place| &words[place][..]);
        assert_eq!(known, [&[3, 0], &[2, 0], &[3, 0], &[3, 18], &[2, 2]]);
        assert_eq!(words.len(), 24 + CORNERS);
        assert!(words.iter().all(|words| [0, 2].contains(&words.len())));
    }

    #[test]
    fn the_same_seed_gives_the_same_file() {
        assert_eq!(record::file(&records(5)), record::file(&records(5)));
        assert_ne!(record::file(&records(5)), record::file(&records(6)));
    }

    #[test]
    fn the_sample_is_small() {
        assert!(record::file(&bottomless()).len() < 40_000);
        assert!(record::file(&crowded_sheets(SEED)).len() < 40_000);
        assert!(record::file(&records(SEED)).len() < 1_415_000);
    }
}
