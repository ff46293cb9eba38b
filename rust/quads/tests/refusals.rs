//! Each refusal by the smallest sheet that shows it, with the text of its cause. A refusal leaves the sheet as it came.
mod common;
use common::{bowl, counts, cube, file_of, shell, unit_box, with_number, with_sum, without_sum};
use quads::{Band, Cause, Field, Job, LIMIT, Ratio, Refusal, Refused, Sheet};
use std::collections::BTreeSet;

/// A band of a ball around the middle of the unit box.
fn ball() -> Band {
    Band { field: Field::Ball { cx: 0.5, cy: 0.5, cz: 0.5, r: 0.0 }, lower: 0.04, upper: 0.16, ..unit_box() }
}

/// A band whose field is 0 everywhere.
fn flat() -> Band {
    Band { field: Field::Plane { a: 0.0, b: 0.0, c: 0.0, d: 0.0 }, ..unit_box() }
}

/// The cube with another label on one quad.
fn labelled(quad: usize, label: u8) -> Sheet {
    let mut sheet = cube();
    sheet.labels[quad] = label;
    sheet
}

/// The cube with one label on all quads.
fn all_labelled(label: u8) -> Sheet {
    Sheet { labels: vec![label; 6], ..cube() }
}

/// The points of a sheet as bits, its quads and its labels: two NaNs of the same bits are the same.
fn bits(sheet: &Sheet) -> (Vec<[u64; 3]>, &[[u32; 4]], &[u8]) {
    (sheet.points.iter().map(|p| p.map(f64::to_bits)).collect(), &sheet.quads, &sheet.labels)
}

/// Whether an operation refuses so, and tells this cause; none where the text is empty.
fn told<T>(result: Result<T, Refused>, refusal: Refusal, cause: &str) -> Refused {
    let refused = result.err().expect("it is refused");
    assert_eq!(refused.refusal(), refusal);
    assert_eq!(refused.cause().map_or(String::new(), |cause| cause.to_string()), cause);
    assert!(refused.to_string().starts_with(&refusal.to_string()) && refused.to_string().ends_with(cause));
    refused
}

/// Whether every operation that makes or alters a sheet refuses one so, `refine` apart, and leaves it.
fn not_changed(sheet: &Sheet, band: &Band, refusal: Refusal, cause: &str) {
    let mut left = sheet.clone();
    told(sheet.subdivide(band), refusal, cause);
    told(sheet.boundary_rows(band), refusal, cause);
    told(left.regularize(band, 2), refusal, cause);
    told(left.regularize(band, 0), refusal, cause);
    told(left.improve_layout(band, 1), refusal, cause);
    told(left.improve_layout(band, 0), refusal, cause);
    told(left.coarsen(band, 1), refusal, cause);
    assert_eq!(bits(&left), bits(sheet));
}

/// Whether every operation that measures a sheet refuses it so.
fn not_measured(sheet: &Sheet, band: &Band, refusal: Refusal, cause: &str) {
    told(sheet.quality(band), refusal, cause);
    told(sheet.corners_per_point(band), refusal, cause);
    told(sheet.page(band), refusal, cause);
}

/// Whether every operation on a lent sheet refuses it so, `refine` apart, and leaves it.
fn refused(sheet: &Sheet, band: &Band, refusal: Refusal, cause: &str) {
    not_changed(sheet, band, refusal, cause);
    not_measured(sheet, band, refusal, cause);
}

/// A band with a lower level of minus infinity in place of its own.
fn bottomless(band: Band) -> Band {
    Band { lower: f64::NEG_INFINITY, ..band }
}

/// The text of that level.
const BOTTOMLESS: &str = "the lower level is -inf";

/// The cube with a corner that names no point.
fn far() -> Sheet {
    let mut sheet = cube();
    sheet.quads[2] = [0, 1, 5, 8];
    sheet
}

#[test]
fn box_1() {
    let levels = |lower, upper| Band { lower, upper, ..unit_box() };
    refused(&cube(), &levels(1.0, 1.0), Refusal::Box, "the lower level 1.0 is not below 1.0");
    refused(&cube(), &levels(f64::NAN, 1.0), Refusal::Box, "the lower level is NaN");
    refused(&cube(), &levels(0.0, f64::INFINITY), Refusal::Box, "the upper level is inf");
    let boxed = |low, high| Band { low, high, ..unit_box() };
    let (zeros, ones) = ([0.0; 3], [1.0; 3]);
    refused(&cube(), &boxed(ones, ones), Refusal::Box, "the low x face is at 1.0, the high x face at 1.0");
    refused(&cube(), &boxed([0.0, 0.0, 2.0], ones), Refusal::Box, "the low z face is at 2.0, the high z face at 1.0");
    refused(&cube(), &boxed(zeros, [1.0, f64::NAN, 1.0]), Refusal::Box, "the high y face is at NaN");
    refused(&cube(), &boxed(zeros, [1e200; 3]), Refusal::Box, "the diagonal of the box has the length inf");
    refused(&cube(), &boxed(zeros, [1e-200; 3]), Refusal::Box, "the diagonal of the box has the length 0.0");
    told(Sheet::extract_candidate(&levels(2.0, 1.0), 8), Refusal::Box, "the lower level 2.0 is not below 1.0");
}

#[test]
fn box_1_where_the_lower_level_is_minus_infinity() {
    for sheet in [cube(), Sheet::default(), far(), labelled(1, 8), labelled(0, 5), all_labelled(0)] {
        not_changed(&sheet, &bottomless(unit_box()), Refusal::Box, BOTTOMLESS);
        not_changed(&sheet, &bottomless(flat()), Refusal::Box, BOTTOMLESS);
    }
    let boxed = Band { high: [1.0, -1.0, 1.0], ..bottomless(unit_box()) };
    not_changed(&cube(), &boxed, Refusal::Box, BOTTOMLESS);
    let endless = Band { upper: f64::INFINITY, ..bottomless(unit_box()) };
    not_changed(&cube(), &endless, Refusal::Box, BOTTOMLESS);
    let refused = told(cube().subdivide(&bottomless(unit_box())), Refusal::Box, BOTTOMLESS);
    assert_eq!(refused.advice(), "give finite levels, the lower below the upper");
}

#[test]
fn box_1_where_the_lower_level_of_a_drawing_is_minus_infinity() {
    for cells in [0, 3, 4, 8, 129, usize::MAX] {
        told(Sheet::extract_candidate(&bottomless(ball()), cells), Refusal::Box, BOTTOMLESS);
    }
    let field = Field::Plane { a: f64::NAN, b: 0.0, c: 0.0, d: 0.0 };
    told(Sheet::extract_candidate(&Band { field, ..bottomless(ball()) }, 4), Refusal::Box, BOTTOMLESS);
    told(Sheet::extract_candidate(&Band { upper: -10.0, ..bottomless(ball()) }, 4), Refusal::Box, BOTTOMLESS);
}

#[test]
fn large_12_comes_before_a_lower_level_of_minus_infinity() {
    let sheet = Sheet { points: vec![[0.0; 3]; LIMIT + 1], quads: vec![[0; 4]], labels: vec![] };
    refused(&sheet, &bottomless(unit_box()), Refusal::Large, "it has 1048577 points, 1 quad and 0 labels");
}

#[test]
fn coarsen_without_a_pass_looks_at_no_level() {
    for lower in [f64::NEG_INFINITY, f64::NAN, f64::INFINITY] {
        for sheet in [cube(), Sheet::default(), far(), labelled(0, 5)] {
            let mut left = sheet.clone();
            assert_eq!(left.coarsen(&Band { lower, ..unit_box() }, 0), Ok(0));
            assert_eq!(bits(&left), bits(&sheet));
        }
    }
}

#[test]
fn a_sheet_is_measured_above_minus_infinity_as_above_a_finite_level() {
    let drawn = |band| (Sheet::extract_candidate(&band, 8).unwrap(), band);
    for (sheet, band) in [(cube(), unit_box()), (cube().refine().unwrap(), unit_box()), drawn(shell()), drawn(bowl())] {
        let old = bottomless(band);
        assert!(sheet.quality(&old).is_ok_and(|quality| quality.tight));
        assert_eq!(sheet.quality(&old), sheet.quality(&band));
        assert_eq!(sheet.page(&old), sheet.page(&band));
        assert_eq!(sheet.corners_per_point(&old), sheet.corners_per_point(&band));
    }
}

#[test]
fn where_a_sheet_is_measured_another_fault_is_told() {
    let old = bottomless(unit_box());
    not_measured(&Sheet::default(), &old, Refusal::Bare, "it has no point");
    not_measured(&far(), &old, Refusal::Corner, "corner 3 of quad 2 is point 8, and there are 8 points");
    let text = "point 0 lies on two opposite faces, the low y face and the high y face (labels 4 and 5)";
    not_measured(&labelled(0, 5), &old, Refusal::Clash, text);
    let text = "the low x face is at 2.0, the high x face at 1.0";
    not_measured(&cube(), &Band { low: [2.0, 0.0, 0.0], ..old }, Refusal::Box, text);
    for upper in [f64::INFINITY, f64::NEG_INFINITY] {
        not_measured(&cube(), &Band { upper, ..old }, Refusal::Box, &format!("the upper level is {upper:?}"));
    }
    let text = "at the centre of quad 5 the gradient is (0.0, 0.0, 0.0)";
    told(labelled(5, 0).quality(&bottomless(flat())), Refusal::Normal, text);
    told(labelled(5, 0).page(&bottomless(flat())), Refusal::Normal, text);
}

/// What every operation that takes a band refuses of a sheet, or to draw.
fn refusals(sheet: &Sheet, band: &Band, number: usize) -> impl Iterator<Item = Refusal> {
    let mut left = sheet.clone();
    let results = [
        Sheet::extract_candidate(band, number).err(),
        sheet.subdivide(band).err(),
        sheet.boundary_rows(band).err(),
        left.regularize(band, number).err(),
        left.improve_layout(band, number).err(),
        left.coarsen(band, number).err(),
        sheet.quality(band).err(),
        sheet.corners_per_point(band).err(),
        sheet.page(band).err(),
    ];
    results.into_iter().flatten().map(|refused| refused.refusal())
}

#[test]
fn bottomless_2_is_never_answered() {
    const LEVELS: [f64; 7] = [f64::NEG_INFINITY, f64::INFINITY, f64::NAN, f64::MIN, -1.0, 2.0, f64::MAX];
    let mut numbers = BTreeSet::new();
    for levels in LEVELS.iter().flat_map(|&lower| LEVELS.map(|upper| [lower, upper])) {
        for (sheet, number) in [(cube(), 1), (Sheet::default(), 0), (far(), 4), (labelled(0, 5), 3)] {
            let band = Band { lower: levels[0], upper: levels[1], ..ball() };
            numbers.extend(refusals(&sheet, &band, number).map(Refusal::number));
        }
    }
    assert!(numbers.contains(&1) && numbers.contains(&3) && !numbers.contains(&2), "{numbers:?}");
}

#[test]
fn cells_3() {
    for cells in [0, 3, 129, usize::MAX] {
        told(Sheet::extract_candidate(&ball(), cells), Refusal::Cells, "");
    }
}

#[test]
fn samples_4_where_a_number_of_the_field_is_not_finite() {
    let draw = |field| Sheet::extract_candidate(&Band { field, ..ball() }, 4);
    let plane = Field::Plane { a: f64::INFINITY, b: 0.0, c: 0.0, d: 0.0 };
    let refused = told(draw(plane), Refusal::Samples, "the field's number a is inf");
    assert_eq!(refused.advice(), "give finite numbers for the field");
    let ball = Field::Ball { cx: 0.0, cy: 0.0, cz: 0.0, r: f64::NAN };
    told(draw(ball), Refusal::Samples, "the field's number r is NaN");
    let quadric = Field::Quadric([0.0, 0.0, 0.0, 0.0, 0.0, 0.0, 0.0, f64::NEG_INFINITY, 0.0, 0.0]);
    told(draw(quadric), Refusal::Samples, "the field's number k7 is -inf");
}

/// The first place of the grid, in a box of side 4 and 4 cells.
const FIRST: &str = "at place (0, 0, 0), the point (-0.513, -0.513, -0.513), the field is";

#[test]
fn samples_4_where_the_field_is_too_large() {
    let draw = |a, upper| {
        let field = Field::Plane { a, b: a, c: a, d: 0.0 };
        Sheet::extract_candidate(&Band { field, low: [0.0; 3], high: [4.0; 3], lower: 0.0, upper }, 4)
    };
    let refused = told(draw(1.5e308, 1.0), Refusal::Samples, &format!("{FIRST} -inf"));
    assert_eq!(refused.advice(), Refusal::Samples.advice());
    let refused = draw(1e300, 1e-300).unwrap_err();
    let text = refused.to_string();
    assert!(text.contains(FIRST) && text.ends_with("e300, too much beside the distance of the levels"), "{text}");
    assert!(refused.advice().starts_with("move the levels further apart"));
}

#[test]
fn bare_5() {
    refused(&Sheet::default(), &unit_box(), Refusal::Bare, "it has no point");
    let points = Sheet { quads: vec![], labels: vec![], ..cube() };
    refused(&points, &unit_box(), Refusal::Bare, "it has no quad");
    let mut sheet = cube();
    sheet.labels.pop();
    refused(&sheet, &unit_box(), Refusal::Bare, "it has 6 quads and 5 labels");
    told(sheet.refine(), Refusal::Bare, "it has 6 quads and 5 labels");
    let mut sheet = cube();
    sheet.points[3][1] = f64::NAN;
    refused(&sheet, &unit_box(), Refusal::Bare, "point 3 is (1.0, NaN, 0.0)");
    assert_eq!(sheet.refine().map(|finer| finer.counts()), Ok(counts(26, 24)));
}

#[test]
fn bare_5_where_nothing_is_drawn() {
    let draw = |lower, upper| Sheet::extract_candidate(&Band { lower, upper, ..ball() }, 4).unwrap_err();
    let far = draw(10.0, 11.0);
    assert_eq!(far.refusal(), Refusal::Bare);
    let text = far.to_string();
    assert!(text.contains(": over the grid the field is from 0.0") && text.contains(" to 0.4"), "{text}");
    assert!(text.ends_with(", nowhere between the levels 10.0 and 11.0"), "{text}");
    assert!(far.advice().starts_with("give levels that the field takes in the box"));
    assert_eq!(draw(0.3, 0.3001).advice(), "draw with more cells: the band is thinner than a cell");
}

#[test]
fn bare_5_where_a_smoothed_point_is_not_finite() {
    let mut sheet = cube();
    sheet.points.iter_mut().flatten().for_each(|x| *x *= 1e308);
    let text = "the midpoint of the edge from point 1 to point 3 is not finite once it is smoothed";
    let refused = told(sheet.subdivide(&unit_box()), Refusal::Bare, text);
    assert_eq!(refused.advice(), "use smaller coordinates");
}

#[test]
fn corner_6() {
    refused(&labelled(1, 8), &unit_box(), Refusal::Corner, "quad 1 has the label 8");
    let mut sheet = cube();
    sheet.quads[2] = [0, 1, 1, 4];
    refused(&sheet, &unit_box(), Refusal::Corner, "corners 1 and 2 of quad 2 are both point 1");
    assert!(sheet.refine().is_ok());
    sheet.quads[2] = [0, 1, 5, 8];
    let text = "corner 3 of quad 2 is point 8, and there are 8 points";
    refused(&sheet, &unit_box(), Refusal::Corner, text);
    sheet.labels[0] = 8;
    told(sheet.refine(), Refusal::Corner, text);
}

#[test]
fn clash_7() {
    let text = "point 0 lies on two opposite faces, the low y face and the high y face (labels 4 and 5)";
    refused(&labelled(0, 5), &unit_box(), Refusal::Clash, text);
    let both = Sheet { labels: vec![0, 3, 1, 5, 6, 7], ..cube() };
    refused(&both, &unit_box(), Refusal::Clash, "point 0 lies on both levels (labels 0 and 1)");
    let mut sheet = cube();
    sheet.points.push([0.5; 3]);
    refused(&sheet, &unit_box(), Refusal::Clash, "point 8 has no quad");
    let advice = sheet.quality(&unit_box()).unwrap_err().advice();
    assert_eq!(advice, "remove the point, or mend the sheet where it was made");
}

#[test]
fn clash_7_where_rows_leave_a_point_bare() {
    let mut sheet = all_labelled(2);
    sheet.points.extend(cube().points[1..].iter().map(|point| point.map(|x| x + 1.0)));
    sheet.quads.extend(cube().quads.iter().map(|quad| quad.map(|corner| corner + 7)));
    sheet.labels.extend([4; 6]);
    let band = Band { high: [2.0; 3], ..unit_box() };
    assert!(sheet.subdivide(&band).is_ok());
    let text = "rows leave point 7, where patches touch, without a quad";
    told(sheet.boundary_rows(&band), Refusal::Clash, text);
}

#[test]
fn clash_7_where_a_cell_is_too_large() {
    let thin = Band { lower: 0.6, high: [1.0, 1.0, 0.1], ..shell() };
    let refused = Sheet::extract_candidate(&thin, 4).unwrap_err();
    assert_eq!(refused.refusal(), Refusal::Clash);
    let Some(Cause::Cell { cell, centre, labels }) = refused.cause() else { panic!("{refused}") };
    assert_eq!(labels.map(|label| label.number()), [0, 1]);
    assert!(cell.iter().all(|&n| n < 6) && centre.iter().all(|x| x.abs() < 1.5));
    assert!(refused.to_string().ends_with(") lies on both levels (labels 0 and 1)"), "{refused}");
    assert_eq!(refused.advice(), "draw with more cells, so that the band is wider than a cell");
}

#[test]
fn edge_8() {
    let mut open = cube();
    open.quads.pop();
    open.labels.pop();
    let text = "the edge from point 4 to point 5 has 1 quad";
    told(open.subdivide(&unit_box()), Refusal::Edge, text);
    told(open.boundary_rows(&unit_box()), Refusal::Edge, text);
    let mut thick = cube();
    thick.quads.push(thick.quads[3]);
    thick.labels.push(thick.labels[3]);
    told(thick.subdivide(&unit_box()), Refusal::Edge, "the edge from point 2 to point 3 has 3 quads");
}

#[test]
fn astray_9() {
    let midpoint = "the midpoint of the edge from point 0 to point 1";
    let level = |upper| all_labelled(0).subdivide(&Band { upper, ..unit_box() });
    let refused = told(level(2.0), Refusal::Astray, &format!("{midpoint} does not reach its level in twenty moves"));
    assert!(refused.advice().starts_with("give the band around which the sheet was drawn"));
    told(level(1.5), Refusal::Astray, &format!("{midpoint} leaves the box on the way to its level"));
    let text = format!("{midpoint} lies where the field is flat or not finite");
    let refused = told(all_labelled(0).subdivide(&flat()), Refusal::Astray, &text);
    assert!(refused.advice().starts_with("move the levels away from where the field is flat, or"));
}

#[test]
fn row_10() {
    let text = "the copy of point 4 on the upper level (label 0)";
    told(labelled(5, 0).boundary_rows(&flat()), Refusal::Row, text);
}

#[test]
fn normal_11() {
    let measure = |field| labelled(5, 0).quality(&Band { field, ..unit_box() });
    let show = |field| labelled(5, 0).page(&Band { field, ..unit_box() });
    let text = "at the centre of quad 5 the gradient is (0.0, 0.0, 0.0)";
    told(show(flat().field), Refusal::Normal, text);
    let refused = told(measure(flat().field), Refusal::Normal, text);
    assert_eq!(refused.advice(), "move the levels away from where the field is flat");
    let text = "at the centre of quad 5 the gradient is (NaN, 0.0, 1e200)";
    let steep = Field::Plane { a: f64::NAN, b: 0.0, c: 1e200, d: 0.0 };
    told(show(steep), Refusal::Normal, text);
    let refused = told(measure(steep), Refusal::Normal, text);
    assert_eq!(refused.advice(), "give finite and smaller numbers for the field");
    for field in [flat().field, steep] {
        let corners = labelled(5, 0).corners_per_point(&Band { field, ..unit_box() });
        assert_eq!(corners, Ok(Ratio { quotient: 3, remainder: 0 }));
    }
}

#[test]
fn large_12() {
    let sheet = Sheet { points: vec![[0.0; 3]; LIMIT + 1], quads: vec![[0; 4]], labels: vec![] };
    let text = "it has 1048577 points, 1 quad and 0 labels";
    refused(&sheet, &unit_box(), Refusal::Large, text);
    told(sheet.refine(), Refusal::Large, text);
    let job = Job::new(&unit_box(), sheet);
    told(job.save(), Refusal::Large, text);
    told(Job::open(&file_of(&job)), Refusal::Large, text);
    told(Job::open(&without_sum(&file_of(&job))), Refusal::Large, text);
}

#[test]
fn short_13_where_the_result_is_above_the_limit() {
    let n = LIMIT / 4 + 1;
    let sheet = Sheet { points: vec![[0.0; 3]; 4], quads: vec![[0, 1, 2, 3]; n], labels: vec![0; n] };
    told(sheet.refine(), Refusal::Short, "");
}

#[test]
fn trailer_14() {
    let file = Job::new(&unit_box(), cube()).save().unwrap();
    let opened = |file: &[u8], cause: &str| told(Job::open(file), Refusal::Trailer, cause);
    opened(&[], "the file has 0 bytes, and a job file has 84 or more");
    opened(&file[..1], "the file has 1 byte, and a job file has 84 or more");
    let refused = opened(&file[..83], "the file has 83 bytes, and a job file has 84 or more");
    assert_eq!(refused.advice(), "give a job file as it was saved, whole and unaltered");
    let short = "the file has 91 bytes, and a job file whose trailer has 28 bytes has 92 or more";
    opened(&file[file.len() - 91..], short);
    let behind = opened(&[&file[..], &[0; 2]].concat(), "a job file ends at byte 386, and 2 bytes are behind it");
    assert_eq!(behind.advice(), "take away the bytes behind the trailer");
    opened(&[&file[..], &[0]].concat(), "a job file ends at byte 386, and 1 byte is behind it");
    for (place, number, cause) in [
        (4, 24, "its last number, the length of the trailer, is 24 and neither 28 nor 20"),
        (0, 0, "its points start at byte 0 and not at byte 64"),
        (1, 40, "its quads start at byte 40, before the points at byte 64"),
        (1, 257, "its points take 193 bytes, which is no multiple of 24"),
        (2, 255, "its labels start at byte 255, before the quads at byte 256"),
        (2, 257, "its quads take 1 byte, which is no multiple of 16"),
        (3, 351, "its trailer starts at byte 351, before the labels at byte 352"),
    ] {
        opened(&with_number(&file, place, number), cause);
        opened(&with_number(&without_sum(&file), place, number), cause);
    }
    let cause = "its trailer is said to start at byte 360, and the last 28 bytes start at byte 358";
    opened(&with_number(&file, 3, 360), cause);
    let cause = "its trailer is said to start at byte 360, and the last 20 bytes start at byte 358";
    opened(&with_number(&without_sum(&file), 3, 360), cause);
}

#[test]
fn sum_17() {
    let file = Job::new(&unit_box(), cube()).save().unwrap();
    let text = "its trailer says the sum 9, and the sum of its sheet is 8";
    let refused = told(Job::open(&with_sum(&file, 9)), Refusal::Sum, text);
    assert_eq!(refused.advice(), "give the job file as it was saved: its quads or its trailer were altered since");
    let reason = "17 sum: the squared sum in the trailer of the job file is not that of its sheet";
    assert_eq!(refused.to_string(), format!("{reason}: {text}"));
}

#[test]
fn the_largest_sheet_is_taken() {
    let n = LIMIT / 4 - 8;
    let sheet = Sheet { points: vec![[0.0; 3]; 4], quads: vec![[0, 1, 2, 3]; n], labels: vec![0; n] };
    assert_eq!(sheet.refine().map(|finer| finer.counts()), Ok(counts(n + 8, 4 * n)));
}
