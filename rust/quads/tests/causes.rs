//! Sheets and bands that are spoiled at random: what is refused has a cause, and the cause is there.
mod common;
#[path = "damaged/random.rs"]
mod random;

use common::{
    bowl, cube, edges, file_of, page_of, place_of, shell, squared_sum, unit_box, with_number, with_sum, without_sum,
};
use quads::{Band, Cause, Field, Job, Label, Ratio, Refusal, Refused, Section, Sheet, TrailerFault, Workspace};
use random::Random;
use std::collections::{BTreeMap, HashSet};

/// Numbers that spoil a float.
const FLOATS: [f64; 9] = [0.0, 0.5, -3.0, 1e-200, 1e200, 1.5e308, f64::NAN, f64::INFINITY, f64::NEG_INFINITY];

/// Spoils one thing of a sheet.
fn spoil_sheet(sheet: &mut Sheet, random: &mut Random) {
    let (points, quads) = (sheet.points.len(), sheet.quads.len());
    match random.below(7) {
        0 => sheet.points[random.below(points)][random.below(3)] = random.pick(&FLOATS),
        1 => sheet.quads[random.below(quads)][random.below(4)] = random.below(points + 1) as u32,
        2 => sheet.labels[random.below(quads)] = random.below(9) as u8,
        3 => sheet.points.push([0.5; 3]),
        4 => sheet.labels.fill(random.below(8) as u8),
        5 => {
            sheet.quads.pop();
            sheet.labels.truncate(quads - random.below(2));
        }
        _ => {}
    }
}

/// Spoils one thing of a band.
fn spoil_band(band: &mut Band, random: &mut Random) {
    let float = random.pick(&FLOATS);
    match random.below(8) {
        0 => band.lower = float,
        1 => band.upper = float,
        2 => band.low[random.below(3)] = float,
        3 => band.high[random.below(3)] = float,
        4 => band.field = Field::Plane { a: float, b: 0.0, c: 0.0, d: 0.0 },
        5 => band.field = Field::Quadric([float, 1.0, 1.0, 0.0, 0.0, 0.0, 0.0, 0.0, 0.0, 0.0]),
        _ => {}
    }
}

/// What the operations that take a sheet refuse.
fn refusals(workspace: &mut Workspace, sheet: &Sheet, band: &Band) -> Vec<Refused> {
    let made = [workspace.refine(sheet), workspace.subdivide(sheet, band), workspace.boundary_rows(sheet, band)];
    let altered = workspace.coarsen(&mut sheet.clone(), band, 1).err();
    let measured = workspace.quality(sheet, band).err();
    let divided = workspace.corners_per_point(sheet, band).err();
    let shown = workspace.page(sheet, band).err();
    made.into_iter().filter_map(Result::err).chain(altered).chain(measured).chain(divided).chain(shown).collect()
}

/// Whether what a cause says of a sheet is so, as far as that is seen in the sheet alone.
fn is_so(cause: Cause, sheet: &Sheet) -> bool {
    let labels_at = |point: usize| {
        let quads = sheet.quads.iter().zip(&sheet.labels);
        quads.filter(|(quad, _)| quad.contains(&(point as u32))).map(|(_, &label)| label).collect::<Vec<u8>>()
    };
    match cause {
        Cause::Labels { quads, labels } => (quads, labels) == (sheet.quads.len(), sheet.labels.len()),
        Cause::Point { point, .. } => sheet.points[point].iter().any(|x| !x.is_finite()),
        Cause::Label { quad, label } => sheet.labels[quad] == label && label > 7,
        Cause::Range { quad, corner, point, .. } => {
            sheet.quads[quad][corner] == point && point as usize >= sheet.points.len()
        }
        Cause::Twice { quad, corners: [i, j], .. } => i < j && sheet.quads[quad][i] == sheet.quads[quad][j],
        Cause::Unused(point) => labels_at(point).is_empty(),
        Cause::Opposite { point, labels } => labels.iter().all(|label| labels_at(point).contains(&label.number())),
        Cause::Edge { points: [a, b], quads } => quads != 2 && edges(sheet)[&(a, b)] == quads,
        Cause::Row { point, label } => labels_at(point).contains(&label.number()),
        Cause::Normal { quad, .. } => sheet.labels[quad] < 2,
        _ => true,
    }
}

#[test]
fn each_refusal_of_a_sheet_has_its_cause() {
    let (mut random, mut workspace, mut seen) = (Random(1), Workspace::new(), BTreeMap::new());
    let drawn = |band: &Band| (Sheet::extract_candidate(band, 8).unwrap(), *band);
    let start = [(cube(), unit_box()), drawn(&shell()), drawn(&bowl())];
    for _ in 0..1500 {
        let (mut sheet, mut band) = start[random.below(3)].clone();
        spoil_sheet(&mut sheet, &mut random);
        spoil_band(&mut band, &mut random);
        for refused in refusals(&mut workspace, &sheet, &band) {
            let cause = refused.cause().unwrap_or_else(|| panic!("{refused}: {sheet:?} {band:?}"));
            assert_eq!(cause.refusal(), refused.refusal());
            assert!(is_so(cause, &sheet), "{refused}: {sheet:?}");
            *seen.entry(refused.refusal().number()).or_insert(0) += 1;
        }
    }
    assert!(seen.into_keys().eq([1, 5, 6, 7, 8, 9, 10, 11]));
}

/// A lower level of minus infinity, told as a cause.
const BOTTOMLESS: Cause = Cause::Level { level: Label::Lower, value: f64::NEG_INFINITY };

#[test]
fn a_lower_level_of_minus_infinity_is_the_first_cause() {
    let (mut random, mut workspace) = (Random(6), Workspace::new());
    for _ in 0..500 {
        let (mut sheet, mut band) = (cube(), unit_box());
        spoil_sheet(&mut sheet, &mut random);
        spoil_band(&mut band, &mut random);
        band.lower = f64::NEG_INFINITY;
        let mut left = sheet.clone();
        let causes = [
            workspace.extract_candidate(&band, random.below(6)).err(),
            workspace.subdivide(&sheet, &band).err(),
            workspace.boundary_rows(&sheet, &band).err(),
            workspace.regularize(&mut left, &band, random.below(2)).err(),
            workspace.improve_layout(&mut left, &band, random.below(2)).err(),
            workspace.coarsen(&mut left, &band, 1 + random.below(2)).err(),
        ];
        assert_eq!(causes.map(|refused| refused.unwrap().cause()), [Some(BOTTOMLESS); 6]);
    }
}

#[test]
fn a_lower_level_of_minus_infinity_is_no_cause_where_a_sheet_is_measured() {
    let (mut random, mut workspace, mut seen) = (Random(7), Workspace::new(), BTreeMap::new());
    for _ in 0..1500 {
        let (mut sheet, mut band) = (cube(), unit_box());
        spoil_sheet(&mut sheet, &mut random);
        spoil_band(&mut band, &mut random);
        band.lower = f64::NEG_INFINITY;
        let measured = workspace.quality(&sheet, &band).err();
        let others = [workspace.corners_per_point(&sheet, &band).err(), workspace.page(&sheet, &band).err()];
        for refused in others.into_iter().chain([measured]).flatten() {
            let cause = refused.cause().unwrap_or_else(|| panic!("{refused}: {sheet:?} {band:?}"));
            assert!(cause != BOTTOMLESS && cause.refusal() == refused.refusal(), "{refused}: {band:?}");
            *seen.entry(refused.refusal().number()).or_insert(0) += 1;
        }
    }
    assert!(seen.into_keys().eq([1, 5, 6, 7, 11]));
}

#[test]
fn above_minus_infinity_a_wrong_box_is_told_where_a_sheet_is_measured_and_the_level_elsewhere() {
    let band = Band { lower: f64::NEG_INFINITY, low: [0.0, f64::NAN, 0.0], ..unit_box() };
    let cause = |refused: Option<Refused>| format!("{:?}", refused.unwrap().cause().unwrap());
    let bound = format!("{:?}", Cause::Bound { face: Label::LowY, value: f64::NAN });
    assert_eq!(cause(cube().quality(&band).err()), bound);
    assert_eq!(cause(cube().corners_per_point(&band).err()), bound);
    assert_eq!(cause(cube().page(&band).err()), bound);
    assert_eq!(cause(cube().regularize(&band, 1).err()), format!("{BOTTOMLESS:?}"));
    assert_eq!(cause(cube().boundary_rows(&band).err()), format!("{BOTTOMLESS:?}"));
}

#[test]
fn corners_per_point_are_refused_as_quality_apart_from_normal() {
    let (mut random, mut workspace, mut normals) = (Random(3), Workspace::new(), 0);
    let start = [(cube(), unit_box()), (Sheet::extract_candidate(&bowl(), 6).unwrap(), bowl())];
    for _ in 0..1500 {
        let (mut sheet, mut band) = start[random.below(2)].clone();
        spoil_sheet(&mut sheet, &mut random);
        spoil_band(&mut band, &mut random);
        let corners = workspace.corners_per_point(&sheet, &band);
        match workspace.quality(&sheet, &band) {
            Err(refused) if refused.refusal() != Refusal::Normal => {
                assert_eq!(corners.unwrap_err().to_string(), refused.to_string());
            }
            measured => {
                normals += usize::from(measured.is_err());
                let Ratio { quotient, remainder } = corners.unwrap();
                assert_eq!(quotient * sheet.points.len() + remainder, 4 * sheet.quads.len());
            }
        }
    }
    assert!(normals > 0);
}

#[test]
fn a_page_is_refused_as_quality() {
    let (mut random, mut workspace, mut seen) = (Random(4), Workspace::new(), BTreeMap::new());
    let start = [(cube(), unit_box()), (Sheet::extract_candidate(&bowl(), 6).unwrap(), bowl())];
    for _ in 0..1500 {
        let (mut sheet, mut band) = start[random.below(2)].clone();
        spoil_sheet(&mut sheet, &mut random);
        spoil_band(&mut band, &mut random);
        let page = workspace.page(&sheet, &band);
        match workspace.quality(&sheet, &band) {
            Ok(quality) => assert_eq!(page.unwrap(), page_of(&quality).as_bytes()),
            Err(refused) => {
                assert_eq!(page.unwrap_err().to_string(), refused.to_string());
                *seen.entry(refused.refusal().number()).or_insert(0) += 1;
            }
        }
    }
    assert!(seen.into_keys().eq([1, 5, 6, 7, 11]));
}

/// Spoils the end of a job file: its sum, a number of its trailer, or its length.
fn spoil_file(file: &mut Vec<u8>, random: &mut Random) {
    match random.below(5) {
        0 => file.truncate(random.below(file.len())),
        1 => file.extend(vec![random.below(256) as u8; 1 + random.below(30)]),
        2 => *file = with_sum(file, random.pick(&[0, 8, 9, 1 << 32, u64::MAX])),
        _ => {
            let place = random.below(5);
            let steps = [0, 1, -1, 16, -16, 24, -24, 48, -48];
            let near = steps.map(|step| number_of(file, place).wrapping_add_signed(step));
            let far = [0, 20, 28, 64, u32::MAX - 23, number_of(file, random.below(5))];
            let number = if random.below(2) == 0 { random.pick(&near) } else { random.pick(&far) };
            *file = with_number(file, place, number);
        }
    }
}

/// A number of the trailer of a file.
fn number_of(file: &[u8], place: usize) -> u32 {
    file[place_of(file, place)..].first_chunk().map(|bytes| u32::from_le_bytes(*bytes)).unwrap()
}

/// Whether what a cause says of a job file is so.
fn is_so_of(fault: TrailerFault, file: &[u8]) -> bool {
    let says = |place: usize, number: u32| number_of(file, place) == number;
    let starts = |section: Section| section as usize;
    match fault {
        TrailerFault::Short(bytes) => bytes == file.len() && (bytes < 84 || bytes < 92 && says(4, 28)),
        TrailerFault::Behind { end, bytes } => end + bytes == file.len() && Job::sum(&file[..end]).is_ok(),
        TrailerFault::Length(length) => says(4, length) && ![20, 28].contains(&length),
        TrailerFault::Start(start) => says(0, start) && start != 64,
        TrailerFault::Order { section, from, to } => {
            to < from && says(starts(section), from) && says(starts(section) + 1, to)
        }
        TrailerFault::Part { section, bytes } => {
            bytes % section.element() != 0 && says(starts(section) + 1, number_of(file, starts(section)) + bytes)
        }
        TrailerFault::End { start, length, bytes } => {
            says(3, start) && says(4, length) && bytes == file.len() && start as usize + length as usize != bytes
        }
        _ => false,
    }
}

/// Whether what a cause says of the sum of a job file, and of that of its sheet, is so.
fn is_so_of_sums(file: &[u8], written: u64, sheet: u64) -> bool {
    let opened = Job::open(&without_sum(file)).unwrap();
    written != sheet && Job::sum(file) == Ok(Some(written)) && squared_sum(&opened.sheet) as u64 == sheet
}

/// A job file of one of these sheets, some of them without a sum.
fn some_file(sheets: &[Sheet; 3], random: &mut Random) -> Vec<u8> {
    let file = file_of(&Job::new(&bowl(), sheets[random.below(3)].clone()));
    if random.below(3) == 0 { without_sum(&file) } else { file }
}

/// Asserts that a file that opens is saved again as it is, one without a sum as the one with it.
fn assert_saved_again(job: &Job, file: &[u8]) {
    let again = file_of(job);
    assert!(again == file || without_sum(&again) == file, "{file:?}");
}

#[test]
fn each_refusal_of_a_job_file_has_its_cause() {
    let (mut random, mut opened, mut sums, mut seen) = (Random(5), 0, 0, HashSet::new());
    let sheets = [Sheet::default(), cube(), Sheet::extract_candidate(&bowl(), 6).unwrap()];
    for _ in 0..4000 {
        let mut file = some_file(&sheets, &mut random);
        spoil_file(&mut file, &mut random);
        match Job::open(&file).map_err(|refused| refused.cause()) {
            Ok(job) => {
                assert_saved_again(&job, &file);
                opened += 1;
            }
            Err(Some(Cause::Trailer(fault))) => {
                assert!(is_so_of(fault, &file), "{fault:?}: {file:?}");
                seen.insert(std::mem::discriminant(&fault));
            }
            Err(Some(Cause::Sum { written, sheet })) => {
                assert!(is_so_of_sums(&file, written, sheet), "{written} and {sheet}: {file:?}");
                sums += 1;
            }
            Err(other) => panic!("{other:?}: {file:?}"),
        }
    }
    assert!(opened > 100 && sums > 100 && seen.len() == 7, "{opened} opened, {sums} sums, {} kinds", seen.len());
}

#[test]
fn each_refusal_to_draw_has_its_cause() {
    let (mut random, mut workspace, mut seen) = (Random(2), Workspace::new(), BTreeMap::new());
    for _ in 0..2000 {
        let mut band = random.pick(&[shell(), bowl()]);
        spoil_band(&mut band, &mut random);
        band.lower += 0.05 * random.below(10) as f64;
        let Err(refused) = workspace.extract_candidate(&band, 4 + random.below(3)) else { continue };
        assert!(refused.cause().is_some() || refused.refusal() == Refusal::Clash, "{refused}: {band:?}");
        *seen.entry(refused.refusal().number()).or_insert(0) += 1;
    }
    assert!(seen.into_keys().eq([1, 4, 5, 7]));
}
