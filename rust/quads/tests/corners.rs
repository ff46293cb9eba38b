//! Corners per point: 4 × quads ÷ points as a whole number and the exact remainder.
mod common;
use common::{bowl, cube, joined, pillow, shell, unit_box};
use quads::{Band, Field, Ratio, Refusal, Sheet};

/// The quotient and the remainder of a sheet that is not refused.
fn corners(sheet: &Sheet, band: &Band) -> [usize; 2] {
    let Ratio { quotient, remainder } = sheet.corners_per_point(band).unwrap();
    [quotient, remainder]
}

/// Asserts that quotient × points + remainder is 4 × quads, and that the remainder is below points.
fn assert_exact(sheet: &Sheet, band: &Band) {
    let ([quotient, remainder], points) = (corners(sheet, band), sheet.points.len());
    assert_eq!(quotient * points + remainder, 4 * sheet.quads.len());
    assert!(remainder < points);
}

#[test]
fn the_cube_has_three() {
    assert_eq!(corners(&cube(), &unit_box()), [3, 0]);
}

#[test]
fn the_refined_cube_has_three_and_eighteen_more() {
    let finer = cube().refine().unwrap();
    assert_eq!(corners(&finer, &unit_box()), [3, 18]);
    assert_eq!(corners(&finer.refine().unwrap(), &unit_box()), [3, 90]);
}

#[test]
fn two_quads_back_to_back_have_two() {
    assert_eq!(corners(&pillow(), &unit_box()), [2, 0]);
    assert_eq!(corners(&joined(&pillow(), 0, &pillow(), 0), &unit_box()), [2, 2]);
}

#[test]
fn one_quad_has_one() {
    let quad = Sheet { quads: vec![[0, 1, 2, 3]], labels: vec![6], ..pillow() };
    assert_eq!(corners(&quad, &unit_box()), [1, 0]);
}

#[test]
fn a_drawn_sheet_has_them_exactly_through_a_clean_up() {
    for band in [shell(), bowl()] {
        let mut sheet = Sheet::extract_candidate(&band, 12).unwrap();
        assert_exact(&sheet, &band);
        sheet.coarsen(&band, 4).unwrap();
        assert_exact(&sheet, &band);
        sheet.regularize(&band, 4).unwrap();
        assert_exact(&sheet, &band);
        assert_exact(&sheet.subdivide(&band).unwrap(), &band);
    }
}

#[test]
fn a_torus_of_squares_has_four() {
    let at = |i: u32, j: u32| 4 * (i % 4) + j % 4;
    let places = || (0..4).flat_map(|i| (0..4).map(move |j| (i, j)));
    let sheet = Sheet {
        points: places().map(|(i, j)| [f64::from(i) / 4.0, f64::from(j) / 4.0, 0.5]).collect(),
        quads: places().map(|(i, j)| [at(i, j), at(i + 1, j), at(i + 1, j + 1), at(i, j + 1)]).collect(),
        labels: vec![2; 16],
    };
    assert_eq!(corners(&sheet, &unit_box()), [4, 0]);
}

#[test]
fn many_quads_at_few_points_have_many() {
    let sheet = Sheet { quads: vec![[0, 1, 2, 3]; 1000], labels: vec![6; 1000], ..pillow() };
    assert_eq!(corners(&sheet, &unit_box()), [1000, 0]);
}

#[test]
fn a_field_without_a_direction_is_answered() {
    let flat = Band { field: Field::Plane { a: 0.0, b: 0.0, c: 0.0, d: 0.0 }, ..unit_box() };
    let sheet = Sheet { labels: vec![0; 6], ..cube() };
    assert_eq!(sheet.quality(&flat).unwrap_err().refusal(), Refusal::Normal);
    assert_eq!(corners(&sheet, &flat), [3, 0]);
}
