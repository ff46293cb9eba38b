//! The page slice: what a call leaves in it, whatever its length is.
use crate::call::{Lent, Operation};
use crate::common::{cube, page_of, unit_box};
use crate::guarded::is_zero;
use crate::inputs;
use crate::order::{Fault, IN_ORDER};
use crate::random::Random;
use quads::PAGE;

/// Lengths that are enough, and lengths that are not.
const ENOUGH: [usize; 4] = [328, 329, 400, 4096];
const SHORT: [usize; 4] = [0, 1, 41, 327];

/// Asks for the cube's page in a slice of this length, right but for the faults: the number, and the slice after it.
fn page(length: usize, faults: &[Fault]) -> (u32, Vec<u8>) {
    let mut input = inputs::right(&mut Random(1), &(cube(), unit_box()), Operation::Page);
    input.page.resize(length, 255);
    for fault in faults {
        fault(&mut input);
    }
    let before = Lent::of(&input, 3);
    let mut lent = before.clone();
    let number = lent.call(Operation::Page, &input);
    assert_eq!(lent.broken(&before, Operation::Page, number), [""; 0]);
    (number, lent.page.list().to_vec())
}

#[test]
fn zeros_stand_behind_the_page() {
    let text = page_of(&cube().quality(&unit_box()).unwrap());
    for length in ENOUGH {
        let (number, slice) = page(length, &[]);
        assert_eq!((number, slice.len()), (0, length));
        assert_eq!(slice[..PAGE], *text.as_bytes());
        assert!(is_zero(&slice[PAGE..]));
    }
}

#[test]
fn every_refusal_leaves_zeros() {
    for (fault, number) in IN_ORDER {
        for length in ENOUGH {
            assert_eq!(page(length, &[fault]), (number, vec![0; length]));
        }
    }
}

#[test]
fn a_slice_that_is_too_short_is_cleared() {
    for length in SHORT {
        assert_eq!(page(length, &[]), (13, vec![0; length]));
    }
}

#[test]
fn a_slice_that_is_too_short_is_told_behind_large_alone() {
    for (fault, number) in IN_ORDER {
        let told = if number == 12 { 12 } else { 13 };
        for length in SHORT {
            assert_eq!(page(length, &[fault]), (told, vec![0; length]));
        }
    }
}
