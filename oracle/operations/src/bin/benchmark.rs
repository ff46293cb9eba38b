//! benchmark [CELLS]: the library's operations and the original's on the same drawn sheets at 8, 16, .. cells, in one
//! process; then the library's on hostile sheets, in which one point has almost all the quads. Each figure is the
//! best of several runs, taken in turns; growth is the library's time over that at half as many cells or quads. The
//! original is timed by its own operation alone. It has no corners per point and no page: its figures there are those
//! of its tests and of its `quality`, each with the oracle's model. It saves and opens no jobs: its figures there are
//! those of the oracle's writer and reader, with the squared sum. To read the sum of a file takes no time to speak of,
//! and is not timed.
use operations::jobs::JobLent;
use operations::library::{self, Lent};
use oracle::bands::UNIT;
use oracle::call::{self, Call};
use oracle::field::{BandNumbers, Field};
use oracle::job;
use oracle::operation::Operation;
use oracle::quads::{self, QuadMesh};
use oracle::{arguments, crowds, sheets};
use std::hint::black_box;
use std::process::ExitCode;
use std::time::Instant;

/// The operations on a sheet that are timed, each with its number of passes.
const OPERATIONS: [(Operation, u64); 11] = [
    (Operation::Refine, 0),
    (Operation::Subdivide, 0),
    (Operation::Regularize, 1),
    (Operation::ImproveLayout, 1),
    (Operation::Coarsen, 5),
    (Operation::Rows, 0),
    (Operation::Quality, 0),
    (Operation::Page, 0),
    (Operation::Corners, 0),
    (Operation::Save, 0),
    (Operation::Open, 0),
];

/// The call of an operation on a sheet; of one that saves or opens, with room for all.
fn call_on((operation, argument): (Operation, u64), band: &BandNumbers, sheet: &QuadMesh) -> Call {
    let counts = job::counts(sheet);
    let lent = |argument| Call { operation, argument, band: *band, sheet: sheet.clone() };
    match operation {
        Operation::Save => lent(job::bytes(counts) as u64),
        Operation::Open => {
            job::open(job::file_of(&job::header(band), sheet), counts.into_iter().fold(1, usize::max) as u64)
        }
        _ => lent(argument),
    }
}

/// The time of a call of the library in milliseconds, and its number.
fn timed(call: &Call) -> (f64, Option<u32>) {
    let mut number = None;
    if call.operation.is_of_a_job() {
        let mut lent = JobLent::of(call);
        return (milliseconds(|| number = Some(lent.run(call.operation))), number);
    }
    let mut lent = Lent::of(call);
    (milliseconds(|| number = lent.run(call.operation)), number)
}

/// A shell, and a shell that the box cuts.
const BANDS: [(&str, BandNumbers); 2] = [
    (
        "shell",
        BandNumbers { field: Field::Ball([0.0, 0.0, 0.0, 0.0]), bounds: [[-1.0; 3], [1.0; 3]], levels: [0.25, 0.64] },
    ),
    (
        "cut shell",
        BandNumbers { field: Field::Ball([0.0, 0.0, 0.0, 0.0]), bounds: [[-0.7; 3], [0.7; 3]], levels: [0.25, 0.64] },
    ),
];

/// A name, a sheet of so many quads, and the most quads that are timed.
type Hostile = (&'static str, fn(usize) -> QuadMesh, usize);

/// Hostile sheets: one point, or two, has all the quads or half of them. The rule of `coarsen` asks for each diagonal
/// at a point whether every quad there keeps its shape, which in the guarded wheel only the last one does not.
const HOSTILE: [Hostile; 5] = [
    ("fan", sheets::fan, 100_000),
    ("poles", poles, 100_000),
    ("wheel", |quads| sheets::wheel(quads / 2), 100_000),
    ("guarded wheel", |quads| sheets::guarded_wheel(quads / 2), 100_000),
    ("crowded", crowds::crowded, 1_048_576),
];

/// Two poles that all quads share, half of them of another label.
fn poles(quads: usize) -> QuadMesh {
    let mut sheet = sheets::poles(quads);
    sheet.labels[quads / 2..].fill(4);
    sheet
}

/// Milliseconds of one run.
fn milliseconds<T>(run: impl FnOnce() -> T) -> f64 {
    let start = Instant::now();
    black_box(run());
    start.elapsed().as_secs_f64() * 1e3
}

/// Whether the original takes minutes: it walks its whole edge map six times for each swap.
fn is_slow(operation: Operation, cells: usize) -> bool {
    cells > 64 && matches!(operation, Operation::Regularize | Operation::ImproveLayout)
}

/// The best times of the library and of the original, in turns until both have run for two seconds; the original's
/// only if it is asked for.
fn best(call: &Call, with_original: bool) -> (f64, Option<f64>) {
    let (mut ours, mut theirs, mut total) = (f64::INFINITY, None::<f64>, 0.0);
    let mut turns = 0;
    while turns == 0 || (turns < 40 && total < 2000.0) {
        let (time, _) = timed(call);
        (ours, total) = (ours.min(time), total + time);
        if with_original {
            let mut sheet = call.sheet.clone();
            let time = milliseconds(|| call::run(call, &mut sheet));
            (theirs, total) = (Some(theirs.map_or(time, |last| last.min(time))), total + time);
        }
        turns += 1;
    }
    (ours, theirs)
}

/// Whether both answer the same.
fn agrees(call: &Call) -> bool {
    library::answer(call).is_some_and(|answer| call::expected(call).same(&answer, call.operation))
}

/// The time in milliseconds over that of the line before, if there was one.
fn growth(time: f64, before: Option<&f64>) -> String {
    before.map_or(String::new(), |last| format!("{:.1}", time / last))
}

/// The calls on a drawn sheet, and the drawing itself.
fn calls(cells: usize, band: &BandNumbers, sheet: &QuadMesh) -> Vec<Call> {
    let drawing = Call { operation: Operation::Extract, argument: cells as u64, band: *band, sheet: sheets::empty() };
    std::iter::once(drawing).chain(OPERATIONS.map(|operation| call_on(operation, band, sheet))).collect()
}

/// A line for each operation on a drawn sheet, with a word if the answers differ; the library's times for the next
/// doubling.
fn lines(name: &str, cells: usize, band: &BandNumbers, sheet: &QuadMesh, before: &[f64]) -> Vec<f64> {
    let time = |(i, call): (usize, &Call)| {
        let (ours, theirs) = best(call, !is_slow(call.operation, cells));
        let growth = growth(ours, before.get(i));
        let differs = if theirs.is_some() && !agrees(call) { " DIFFERS" } else { "" };
        let (theirs, ratio) =
            theirs.map_or((String::new(), String::new()), |t| (format!("{t:.2}"), format!("{:.3}", ours / t)));
        println!(
            "| {name}, {cells} | {} | {} | {ours:.2} | {theirs} | {ratio} | {growth} |{differs}",
            sheet.quads.len(),
            call.operation.name()
        );
        ours
    };
    calls(cells, band, sheet).iter().enumerate().map(time).collect()
}

/// The table of drawn sheets.
fn table(cells: usize) {
    println!("| sheet, cells | quads | operation | library ms | original ms | ratio | growth |");
    println!("|---|---|---|---|---|---|---|");
    for (name, band) in &BANDS {
        let mut before = vec![];
        for cells in [8, 16, 32, 64, 128].into_iter().filter(|&n| n <= cells) {
            if let Ok(sheet) = quads::extract_candidate(&band.band(), cells) {
                before = lines(name, cells, band, &sheet, &before);
            }
        }
    }
}

/// A line for each operation on a hostile sheet, with the number of its answer; the library's times for the next
/// doubling.
fn hostile_lines(name: &str, sheet: &QuadMesh, before: &[f64]) -> Vec<f64> {
    let time = |(i, &operation): (usize, &(Operation, u64))| {
        let call = call_on(operation, &UNIT, sheet);
        let number = timed(&call).1.map_or(String::new(), |number| number.to_string());
        let (ours, _) = best(&call, false);
        let growth = growth(ours, before.get(i));
        println!(
            "| {name} | {} | {} | {} | {number} | {ours:.2} | {growth} |",
            sheet.points.len(),
            sheet.quads.len(),
            call.operation.name()
        );
        ours
    };
    OPERATIONS.iter().enumerate().map(time).collect()
}

/// The table of hostile sheets.
fn hostile_table() {
    println!("\n| sheet | points | quads | operation | number | library ms | growth |");
    println!("|---|---|---|---|---|---|---|");
    for (name, sheet, most) in HOSTILE {
        let mut before = vec![];
        for quads in [most / 4, most / 2, most] {
            before = hostile_lines(name, &sheet(quads), &before);
        }
    }
}

fn main() -> ExitCode {
    match arguments::number(1, 128) {
        Ok(cells) => {
            table(cells as usize);
            hostile_table();
            ExitCode::SUCCESS
        }
        Err(wrong) => {
            eprintln!("{wrong}: benchmark [CELLS]");
            ExitCode::FAILURE
        }
    }
}
