//! The operations on the unit cube.
mod common;
use common::{counts, cube, euler, squared_sum, unit_box};

#[test]
fn the_cube_is_closed() {
    let cube = cube();
    assert_eq!(cube.counts(), counts(8, 6));
    assert_eq!((euler(&cube), squared_sum(&cube)), (2, 8));
}

#[test]
fn refined_it_has_26_points_and_24_quads() {
    let finer = cube().refine().unwrap();
    assert_eq!(finer.counts(), counts(26, 24));
    assert_eq!((euler(&finer), squared_sum(&finer)), (2, 8));
    assert_eq!(finer.points[8], [0.0, 0.0, 0.5]);
    assert_eq!(finer.labels[..8], [2, 2, 2, 2, 3, 3, 3, 3]);
}

#[test]
fn refined_again_it_has_98_points_and_96_quads() {
    let finer = cube().refine().and_then(|sheet| sheet.refine()).unwrap();
    assert_eq!((finer.counts(), euler(&finer)), (counts(98, 96), 2));
}

#[test]
fn subdivided_it_keeps_its_corners() {
    let finer = cube().subdivide(&unit_box()).unwrap();
    assert_eq!(finer.counts(), counts(26, 24));
    assert_eq!(finer.points[..8], cube().points);
}

#[test]
fn with_rows_it_has_32_points_and_30_quads() {
    let rows = cube().boundary_rows(&unit_box()).unwrap();
    assert_eq!((rows.counts(), euler(&rows)), (counts(32, 30), 2));
    assert_eq!(rows.labels[..6], cube().labels);
}

#[test]
fn its_quality_is_that_of_a_cube() {
    let quality = cube().quality(&unit_box()).unwrap();
    assert_eq!(quality.counts(), [6, 8, 0, 0, 0, 0, 0, 0]);
    assert_eq!((quality.minimum_shape, quality.shape_size_p05, quality.shape_size_mean), (1.0, 1.0, 1.0));
    assert_eq!(quality.minimum_sampled_jacobian, 1.0);
    assert!(quality.tight && quality.is_valid());
}

#[test]
fn without_a_quad_it_is_open() {
    let mut open = cube();
    open.quads.pop();
    open.labels.pop();
    let quality = open.quality(&unit_box()).unwrap();
    assert_eq!(quality.counts(), [5, 8, 4, 0, 0, 4, 0, 0]);
    assert!(!quality.tight && !quality.is_valid());
}

#[test]
fn with_a_quad_turned_over_it_is_not_valid() {
    let mut turned = cube();
    turned.quads[0].reverse();
    let quality = turned.quality(&unit_box()).unwrap();
    assert_eq!(quality.counts(), [6, 8, 0, 0, 4, 0, 0, 1]);
    assert!(!quality.tight && !quality.is_valid());
}

#[test]
fn it_has_nothing_to_swap() {
    let mut sheet = cube().refine().unwrap();
    let before = sheet.clone();
    assert_eq!(sheet.regularize(&unit_box(), 5), Ok(0));
    assert_eq!(sheet.improve_layout(&unit_box(), 5), Ok(0));
    assert_eq!(sheet, before);
}

#[test]
fn refine_takes_a_sheet_without_quads() {
    let mut points = cube();
    points.quads.clear();
    points.labels.clear();
    assert_eq!(points.refine().unwrap(), points);
}

#[test]
fn coarsen_leaves_the_cube_alone() {
    let mut sheet = cube();
    assert_eq!(sheet.coarsen(&unit_box(), 3), Ok(0));
    assert_eq!(sheet, cube());
}
