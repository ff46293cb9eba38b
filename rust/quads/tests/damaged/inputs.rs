//! Calls that are right, and the damage done to them.
use crate::call::Operation;
use crate::common::{bowl, cube, file_of, shell, unit_box, with_number, with_sum, without_sum};
use crate::random::Random;
use quads::sizes::{self, WorkSize};
use quads::{Band, Counts, Field, Job, LIMIT, PAGE, Sheet};

/// Everything that a call may be lent.
#[derive(Clone)]
pub struct Input {
    pub points: Vec<f64>,
    pub quads: Vec<u32>,
    pub labels: Vec<u8>,
    pub counts: Counts,
    pub kind: u32,
    pub numbers: Vec<f64>,
    pub bounds: Vec<f64>,
    pub levels: [f64; 2],
    /// Passes or cells.
    pub argument: usize,
    /// The slices for a new sheet.
    pub new_points: Vec<f64>,
    pub new_quads: Vec<u32>,
    pub new_labels: Vec<u8>,
    pub work: Vec<u32>,
    pub floats: Vec<f64>,
    pub answer: Vec<u64>,
    pub measures: Vec<f64>,
    pub page: Vec<u8>,
    /// The header of a job that is saved, and where its file goes.
    pub header: Vec<f64>,
    pub file: Vec<u8>,
    /// A job file that is opened, and where its header goes.
    pub saved: Vec<u8>,
    pub new_header: Vec<f64>,
}

/// Sheets with their bands, from which the calls start.
pub fn sheets() -> Vec<(Sheet, Band)> {
    let drawn = |band: Band, cells| (Sheet::extract_candidate(&band, cells).unwrap(), band);
    vec![
        (cube(), unit_box()),
        (cube().refine().unwrap(), unit_box()),
        (cube().boundary_rows(&unit_box()).unwrap(), unit_box()),
        drawn(shell(), 6),
        drawn(bowl(), 6),
    ]
}

/// A field's kind and its numbers.
fn field(field: Field) -> (u32, Vec<f64>) {
    match field {
        Field::Plane { a, b, c, d } => (0, vec![a, b, c, d, 0.0, 0.0, 0.0, 0.0, 0.0, 0.0]),
        Field::Ball { cx, cy, cz, r } => (1, vec![cx, cy, cz, r, 0.0, 0.0, 0.0, 0.0, 0.0, 0.0]),
        Field::Quadric(k) => (2, k.to_vec()),
    }
}

/// The work of an operation on a sheet of these counts, or for drawing with so many cells; of a job with floats that
/// must stay.
fn work(operation: Operation, counts: Counts, cells: usize) -> WorkSize {
    match operation {
        Operation::Extract => sizes::draw_work(cells),
        Operation::Save | Operation::Open | Operation::Sum => WorkSize { floats: 3, ..sizes::job_work(counts) },
        _ => sizes::sheet_work(counts),
    }
}

/// A call of an operation that is lent what it needs, its written slices full of what must go.
pub fn right(random: &mut Random, (sheet, band): &(Sheet, Band), operation: Operation) -> Input {
    let (counts, draws) = (sheet.counts(), operation == Operation::Extract);
    let (kind, numbers) = field(band.field);
    let cells: usize = random.pick(&[4, 5, 6]);
    let work = work(operation, counts, cells);
    let n = if draws { 500 } else { 5 * counts.quads };
    Input {
        points: sheet.points.as_flattened().to_vec(),
        quads: sheet.quads.as_flattened().to_vec(),
        labels: sheet.labels.clone(),
        counts,
        kind,
        numbers,
        bounds: [band.low, band.high].as_flattened().to_vec(),
        levels: [band.lower, band.upper],
        argument: if draws { cells } else { random.pick(&[0, 1, 1, 2, 3]) },
        new_points: vec![f64::NAN; 3 * (counts.points + n)],
        new_quads: vec![u32::MAX; 4 * n],
        new_labels: vec![255; n],
        work: vec![u32::MAX; work.wholes],
        floats: vec![f64::NAN; work.floats],
        answer: vec![u64::MAX; if operation == Operation::Sum { 2 } else { 10 }],
        measures: vec![f64::NAN; 4],
        page: vec![255; PAGE],
        header: [&band.low[..], &band.high, &[band.lower, band.upper]].concat(),
        file: vec![255; sizes::job_bytes(counts)],
        saved: file_of(&Job::new(band, sheet.clone())),
        new_header: vec![f64::NAN; 8],
    }
}

/// Another length for a list: one less, none, half, or a little more.
fn stretch<T: Copy>(random: &mut Random, list: &mut Vec<T>, filling: T) {
    let n = list.len();
    let less = random.below(n + 1);
    let length = random.pick(&[n.saturating_sub(1), 0, n / 2, n + 1, n + 7, less]);
    list.resize(length, filling);
}

/// A count that a caller may have got wrong.
fn count(random: &mut Random, n: usize) -> usize {
    let wraps = [usize::MAX, usize::MAX / 3 + 1, 1 << 62, 1 << 58, 1 << 60, 1 << 32];
    let near = [0, 1, n.wrapping_sub(1), n.wrapping_add(1), n / 2, LIMIT, LIMIT + 1];
    if random.below(2) == 0 { random.pick(&wraps) } else { random.pick(&near) }
}

/// A float of the extremes.
fn extreme(random: &mut Random) -> f64 {
    random.pick(&[f64::NAN, f64::INFINITY, f64::NEG_INFINITY, 1e308, -1e308, 5e-324, 0.0, -0.0, 1.0, -1.0])
}

/// Writes one element of a list that is not empty.
fn poke<T: Copy>(random: &mut Random, list: &mut [T], value: T) {
    if !list.is_empty() {
        list[random.below(list.len())] = value;
    }
}

/// Damages one length or one number of a job, or gives a file as it was saved before the sum was in it.
fn damage_job(random: &mut Random, input: &mut Input) {
    let x = extreme(random);
    match random.below(12) {
        0 => stretch(random, &mut input.header, 1.0),
        1 => stretch(random, &mut input.file, 255),
        2 => stretch(random, &mut input.saved, 0),
        3 => stretch(random, &mut input.new_header, f64::NAN),
        4 => poke(random, &mut input.header, f64::from_bits(x.to_bits() ^ 0xdead_beef)),
        5 => poke(random, &mut input.saved, (x.to_bits() >> 56) as u8),
        _ if input.saved.len() < 28 => {}
        6 | 7 => input.saved = with_sum(&input.saved, random.pick(&[0, 7, 8, 16, 1 << 32, u64::MAX])),
        8 | 9 => input.saved = without_sum(&input.saved),
        _ => damage_trailer(random, &mut input.saved),
    }
}

/// Another number in the trailer of a file that has one.
fn damage_trailer(random: &mut Random, file: &mut Vec<u8>) {
    let words = [0, 16, 19, 20, 21, 24, 28, 63, 64, 65, 88, 256, u32::MAX - 23, u32::MAX];
    *file = with_number(file, random.below(5), random.pick(&words));
}

/// Damages one length, count or number.
pub fn damage(random: &mut Random, input: &mut Input) {
    let (x, n) = (extreme(random), input.points.len() / 3);
    let corner = random.pick(&[0, 1, n as u32, n as u32 + 1, u32::MAX, 1 << 31]);
    match random.below(27) {
        0 => stretch(random, &mut input.points, 0.5),
        1 => stretch(random, &mut input.quads, 0),
        2 => stretch(random, &mut input.labels, 0),
        3 => stretch(random, &mut input.numbers, 1.0),
        4 => stretch(random, &mut input.bounds, 1.0),
        5 => stretch(random, &mut input.new_points, f64::NAN),
        6 => stretch(random, &mut input.new_quads, u32::MAX),
        7 => stretch(random, &mut input.new_labels, 255),
        8 => stretch(random, &mut input.work, u32::MAX),
        9 => stretch(random, &mut input.floats, f64::NAN),
        10 => stretch(random, &mut input.answer, u64::MAX),
        11 => stretch(random, &mut input.measures, f64::NAN),
        12 => stretch(random, &mut input.page, 255),
        13..=15 => {
            let Counts { points, quads, labels } = &mut input.counts;
            let n = match random.below(3) {
                0 => points,
                1 => quads,
                _ => labels,
            };
            *n = count(random, *n);
        }
        16 => input.kind = random.pick(&[0, 1, 2, 3, u32::MAX]),
        17 => poke(random, &mut input.points, x),
        18 => poke(random, &mut input.quads, corner),
        19 => poke(random, &mut input.labels, (x.to_bits() >> 60) as u8),
        20 => poke(random, &mut input.numbers, x),
        21 => poke(random, &mut input.bounds, x),
        22 => poke(random, &mut input.levels, x),
        _ => damage_job(random, input),
    }
}

/// Another number of cells or passes than a caller means to give. Without an end to the passes, neutral swaps may go
/// on for ever.
pub fn damage_argument(random: &mut Random, input: &mut Input, endless: bool) {
    let most = if endless { 5 } else { usize::MAX };
    input.argument = random.pick(&[0, 3, 4, 5, 7, 129, 1 << 21, usize::MAX]).min(most);
}
