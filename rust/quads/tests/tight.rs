//! What tight says: every edge has two quads that run opposite ways, and each point has one ring.
mod common;
use common::{bowl, cube, joined, pillow, unit_box};
use quads::{Quality, Sheet};

/// The quality of a sheet that is not refused.
fn quality(sheet: &Sheet) -> Quality {
    sheet.quality(&unit_box()).unwrap()
}

/// The edges that are counted: of one quad, of more than two, and of two that run the same way.
fn edges(quality: &Quality) -> [usize; 3] {
    [quality.boundary_edges, quality.nonmanifold_edges, quality.orientation_errors]
}

/// Asserts that each edge of a sheet has two quads that run opposite ways, and that so many bad points forbid tight.
fn assert_pinched(sheet: &Sheet, points: usize) {
    let quality = quality(sheet);
    assert_eq!((edges(&quality), quality.bad_vertex_links), ([0; 3], points));
    assert!(!quality.tight && !quality.is_valid());
}

#[test]
fn two_quads_back_to_back_are_tight() {
    let quality = quality(&pillow());
    assert_eq!((edges(&quality), quality.bad_vertex_links, quality.duplicate_faces), ([0; 3], 0, 1));
    assert!(quality.tight && !quality.is_valid());
}

#[test]
fn two_pillows_at_one_point_are_not() {
    assert_pinched(&joined(&pillow(), 0, &pillow(), 0), 1);
}

#[test]
fn two_cubes_at_one_point_are_not() {
    assert_pinched(&joined(&cube(), 7, &cube(), 0), 1);
}

#[test]
fn at_two_points_two_are_counted() {
    let two = joined(&pillow(), 0, &pillow(), 0);
    assert_pinched(&joined(&two, 2, &pillow(), 1), 2);
}

#[test]
fn whole_rings_are_not_enough() {
    let mut turned = cube();
    turned.quads[0].reverse();
    let quality = quality(&turned);
    assert_eq!((edges(&quality), quality.bad_vertex_links), ([0, 0, 4], 0));
    assert!(!quality.tight);
}

#[test]
fn a_tight_sheet_stays_so() {
    let band = bowl();
    let mut sheet = Sheet::extract_candidate(&band, 10).unwrap();
    let is_tight = |sheet: &Sheet| sheet.quality(&band).unwrap().tight;
    assert!(is_tight(&sheet));
    assert!(sheet.coarsen(&band, 2).unwrap() > 0 && is_tight(&sheet));
    assert!(sheet.regularize(&band, 9).unwrap() > 0 && is_tight(&sheet));
    sheet.improve_layout(&band, 2).unwrap();
    assert!(is_tight(&sheet) && is_tight(&sheet.subdivide(&band).unwrap()));
}
