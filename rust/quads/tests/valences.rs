//! Valences as large as they can be: a swap that puts all quads of a sheet at one point.
mod common;
use common::{crowded, squared_sum, unit_box, valences};
use quads::{Band, LIMIT, Refusal, Refused, Sheet, Workspace};

/// An operation that swaps edges.
type Swaps = fn(&mut Sheet, &Band, usize) -> Result<usize, Refused>;

/// Both of them.
const BOTH: [Swaps; 2] = [Sheet::regularize, Sheet::improve_layout];

/// Asserts that one swap is made on so many quads, three or more, which puts all of them at the point 2, and takes off
/// the squared sum what the valences say.
fn assert_full(operation: Swaps, passes: usize, n: usize) {
    let mut sheet = crowded(n);
    let before = squared_sum(&sheet);
    assert_eq!(valences(&sheet), [n, n, n - 1, 1, n - 1, 1]);
    assert_eq!(operation(&mut sheet, &unit_box(), passes), Ok(1));
    assert_eq!(valences(&sheet), [n - 1, n - 1, n, 2, n - 1, 1]);
    let mut swapped = crowded(n);
    swapped.quads[..2].copy_from_slice(&[[2, 4, 1, 3], [2, 3, 5, 0]]);
    assert!(sheet == swapped);
    assert_eq!(before - squared_sum(&sheet), 2 * (n as i64 - 2));
}

#[test]
fn a_swap_puts_all_quads_at_one_point() {
    for n in [3, 4, 5, 8, 100, 65_536, 65_537] {
        BOTH.into_iter().for_each(|operation| assert_full(operation, 1, n));
    }
}

#[test]
fn with_as_many_quads_as_a_sheet_may_have() {
    assert_full(Sheet::regularize, 1, LIMIT);
    assert_full(Sheet::improve_layout, 1000, LIMIT);
}

#[test]
fn one_quad_more_is_refused() {
    for operation in BOTH {
        let mut sheet = crowded(LIMIT + 1);
        assert_eq!(operation(&mut sheet, &unit_box(), 1).unwrap_err().refusal(), Refusal::Large);
        assert!(sheet == crowded(LIMIT + 1));
    }
}

#[test]
fn a_corner_twice_is_refused_so_that_no_quad_counts_twice_at_a_point() {
    for operation in BOTH {
        let mut sheet = crowded(LIMIT);
        sheet.quads[LIMIT - 1] = [2, 1, 2, 4];
        let came = sheet.clone();
        assert_eq!(operation(&mut sheet, &unit_box(), 1).unwrap_err().refusal(), Refusal::Corner);
        assert!(sheet == came);
    }
}

#[test]
fn two_quads_alone_gain_nothing() {
    let mut sheet = crowded(2);
    assert_eq!(sheet.regularize(&unit_box(), 1), Ok(0));
    assert_eq!(sheet, crowded(2));
}

#[test]
fn a_workspace_that_was_filled_is_used_again() {
    let mut workspace = Workspace::new();
    for n in [1000, 3, 1000] {
        let mut sheet = crowded(n);
        assert_eq!(workspace.regularize(&mut sheet, &unit_box(), 2), Ok(1));
        assert_eq!(valences(&sheet), [n - 1, n - 1, n, 2, n - 1, 1]);
    }
}
