//! Drawn sheets: what the operations leave of them.
mod common;
use common::{bowl, counts, edges, euler, shell, squared_sum, unit_box};
use quads::{Band, Field, Refused, Sheet};

/// An operation that alters a sheet.
type Step = fn(&mut Sheet, &Band, usize) -> Result<usize, Refused>;

#[test]
fn a_shell_has_two_skins() {
    let sheet = Sheet::extract_candidate(&shell(), 16).unwrap();
    assert_eq!((sheet.counts(), euler(&sheet)), (counts(1054, 1050), 4));
    assert!(sheet.labels.iter().all(|&label| label < 2));
    assert!(sheet.quality(&shell()).unwrap().is_valid());
}

#[test]
fn a_slab_has_six_labels() {
    let band = Band { field: Field::Plane { a: 0.0, b: 0.0, c: 1.0, d: 0.0 }, lower: 0.3, upper: 0.6, ..unit_box() };
    let sheet = Sheet::extract_candidate(&band, 8).unwrap();
    let labels: std::collections::BTreeSet<u8> = sheet.labels.iter().copied().collect();
    assert!(labels.into_iter().eq(0..6));
    assert_eq!(euler(&sheet), 2);
}

#[test]
fn a_quadric_with_the_numbers_of_a_ball_is_drawn_like_it() {
    let quadric = Field::Quadric([1.0, 1.0, 1.0, 0.0, 0.0, 0.0, 0.0, 0.0, 0.0, 0.0]);
    let sheet = Sheet::extract_candidate(&Band { field: quadric, ..shell() }, 8).unwrap();
    assert_eq!(sheet.quads, Sheet::extract_candidate(&shell(), 8).unwrap().quads);
}

#[test]
fn every_number_of_cells_from_4_to_128_is_taken() {
    let full = Band { lower: -1.0, ..shell() };
    for cells in [4, 5, 128] {
        let sheet = Sheet::extract_candidate(&full, cells).unwrap();
        assert_eq!(euler(&sheet), 2, "{cells}");
    }
}

#[test]
fn the_clean_up_keeps_a_sheet_closed() {
    let mut sheet = Sheet::extract_candidate(&bowl(), 12).unwrap();
    let (skins, mut sum) = (euler(&sheet), squared_sum(&sheet));
    let steps: [Step; 4] = [Sheet::coarsen, Sheet::regularize, Sheet::improve_layout, Sheet::coarsen];
    for step in steps {
        step(&mut sheet, &bowl(), 8).unwrap();
        assert!(edges(&sheet).values().all(|&quads| quads == 2));
        assert_eq!(euler(&sheet), skins);
        assert!(squared_sum(&sheet) <= sum);
        sum = squared_sum(&sheet);
    }
    let finer = sheet.subdivide(&bowl()).unwrap();
    assert_eq!((euler(&finer), squared_sum(&finer)), (skins, sum));
}

#[test]
fn merges_take_quads_away_one_by_one() {
    let mut sheet = Sheet::extract_candidate(&shell(), 10).unwrap();
    let before = sheet.counts();
    let merges = sheet.coarsen(&shell(), 3).unwrap();
    assert!(merges > 0);
    assert_eq!(sheet.counts(), counts(before.points - merges, before.quads - merges));
}

#[test]
fn each_swap_lowers_the_squared_sum_by_two_or_more() {
    let mut sheet = Sheet::extract_candidate(&bowl(), 10).unwrap();
    let before = squared_sum(&sheet);
    let swaps = sheet.regularize(&bowl(), 10).unwrap();
    assert!(swaps > 0);
    assert!(squared_sum(&sheet) + 2 * swaps as i64 <= before);
    let settled = sheet.clone();
    assert_eq!(sheet.regularize(&bowl(), 10), Ok(0));
    assert_eq!(sheet, settled);
}

#[test]
fn no_pass_changes_nothing() {
    let mut sheet = Sheet::extract_candidate(&bowl(), 6).unwrap();
    let before = sheet.clone();
    assert_eq!(sheet.coarsen(&bowl(), 0), Ok(0));
    assert_eq!(sheet.regularize(&bowl(), 0), Ok(0));
    assert_eq!(sheet, before);
}

#[test]
fn no_pass_of_coarsen_looks_at_nothing() {
    let mut bare = Sheet::default();
    assert_eq!(bare.coarsen(&bowl(), 0), Ok(0));
    assert!(bare.coarsen(&bowl(), 1).is_err());
}
