//! The order of refusals: calls with two faults at once, of which the earlier one is told.
use crate::call::{Lent, OPERATIONS, Operation};
use crate::common::{cube, shell, unit_box};
use crate::inputs::{self, Input};
use crate::random::Random;
use quads::LIMIT;

/// Makes a call wrong.
pub type Fault = fn(&mut Input);

/// The operations that take a band and a lent sheet.
fn banded() -> impl Iterator<Item = Operation> {
    OPERATIONS.into_iter().filter(|operation| operation.takes_band() && *operation != Operation::Extract)
}

/// Those of them that make or alter a sheet.
fn changing() -> impl Iterator<Item = Operation> {
    banded().filter(|operation| !MEASURING.contains(operation))
}

/// Those of them that measure the sheet.
const MEASURING: [Operation; 3] = [Operation::Quality, Operation::Corners, Operation::Page];

/// Calls an operation, right but for the faults: its number and what it left.
fn call(operation: Operation, faults: &[Fault]) -> (u32, Lent) {
    let draws = operation == Operation::Extract;
    let from = if draws { (cube(), shell()) } else { (cube(), unit_box()) };
    let mut input = inputs::right(&mut Random(1), &from, operation);
    input.argument = if draws { input.argument } else { 1 };
    for fault in faults {
        fault(&mut input);
    }
    let mut lent = Lent::of(&input, 3);
    (lent.call(operation, &input), lent)
}

/// The number alone.
fn number(operation: Operation, faults: &[Fault]) -> u32 {
    call(operation, faults).0
}

const LARGE: Fault = |input| input.counts.points = LIMIT + 1;
const FEW_NUMBERS: Fault = |input| input.numbers.truncate(9);
const FEW_BOUNDS: Fault = |input| input.bounds.truncate(5);
const FEW_MEASURES: Fault = |input| input.measures.truncate(3);
const FEW_WORK: Fault = |input| input.work.truncate(7);
const NO_KIND: Fault = |input| input.kind = 3;
const NO_PASS: Fault = |input| input.argument = 0;
const NO_POINT: Fault = |input| input.counts.points = 0;
const BOTTOMLESS: Fault = |input| input.levels[0] = f64::NEG_INFINITY;
const THREE_CELLS: Fault = |input| input.argument = 3;
const NO_SAMPLES: Fault = |input| input.numbers[3] = f64::NAN;

/// No room for a new sheet.
const NO_ROOM: Fault = |input| {
    input.new_points.clear();
    input.new_quads.clear();
    input.new_labels.clear();
};

/// Every quad on the upper level of a field without a direction.
const FLAT: Fault = |input| {
    input.numbers.fill(0.0);
    input.labels.fill(0);
};

/// The labels of two opposite faces at one point.
const OPPOSITE: Fault = |input| {
    input.labels[2] = 4;
    input.labels[4] = 5;
};

/// A fault for each number with which `quality` refuses, in the order in which it does.
pub const IN_ORDER: [(Fault, u32); 7] = [
    (LARGE, 12),
    (FEW_NUMBERS, 13),
    (NO_KIND, 1),
    (NO_POINT, 5),
    (|input| input.labels[0] = 8, 6),
    (OPPOSITE, 7),
    (FLAT, 11),
];

/// A fault for each number between which a lower level of minus infinity is told, in the order in which they are.
const AROUND_BOTTOMLESS: [(Fault, u32); 6] =
    [(LARGE, 12), (FEW_NUMBERS, 13), (BOTTOMLESS, 1), (NO_POINT, 5), (|input| input.labels[0] = 8, 6), (OPPOSITE, 7)];

/// An answer slice, or a page, that is one element too short for an operation.
fn few_answers(operation: Operation) -> Fault {
    match operation {
        Operation::Quality => |input| input.answer.truncate(9),
        Operation::Corners => |input| input.answer.truncate(1),
        Operation::Page => |input| input.page.truncate(327),
        _ => |input| input.answer.truncate(3),
    }
}

#[test]
fn large_comes_first() {
    for fault in [few_answers(Operation::Refine), FEW_WORK] {
        assert_eq!(number(Operation::Refine, &[LARGE, fault]), 12);
    }
    for operation in banded() {
        for fault in [FEW_NUMBERS, FEW_BOUNDS, few_answers(operation), FEW_WORK, NO_KIND] {
            assert_eq!(number(operation, &[LARGE, fault]), 12, "{operation:?}");
        }
    }
    assert_eq!(number(Operation::Quality, &[LARGE, FEW_MEASURES]), 12);
}

#[test]
fn every_short_comes_before_box() {
    for operation in banded() {
        for fault in [FEW_NUMBERS, FEW_BOUNDS, few_answers(operation), FEW_WORK] {
            assert_eq!(number(operation, &[NO_KIND, fault]), 13, "{operation:?}");
        }
    }
    assert_eq!(number(Operation::Quality, &[NO_KIND, FEW_MEASURES]), 13);
}

#[test]
fn a_kind_that_is_none_is_refused_as_a_band() {
    for operation in banded() {
        assert_eq!(number(operation, &[NO_KIND]), 1, "{operation:?}");
        assert_eq!(number(operation, &[NO_KIND, NO_POINT]), 1, "{operation:?}");
    }
    assert_eq!(number(Operation::Extract, &[NO_KIND]), 1);
}

#[test]
fn coarsen_without_a_pass_meets_large_and_short_only() {
    assert_eq!(number(Operation::Coarsen, &[NO_PASS, NO_KIND]), 0);
    assert_eq!(number(Operation::Coarsen, &[NO_PASS, NO_KIND, NO_POINT]), 0);
    assert_eq!(number(Operation::Coarsen, &[NO_PASS, NO_KIND, FEW_BOUNDS]), 13);
    assert_eq!(number(Operation::Coarsen, &[NO_PASS, FEW_BOUNDS, LARGE]), 12);
    assert_eq!(number(Operation::Coarsen, &[NO_PASS, BOTTOMLESS]), 0);
    assert_eq!(number(Operation::Coarsen, &[NO_PASS, BOTTOMLESS, NO_POINT]), 0);
    assert_eq!(number(Operation::Coarsen, &[NO_PASS, BOTTOMLESS, FEW_WORK]), 13);
    assert_eq!(number(Operation::Coarsen, &[NO_PASS, BOTTOMLESS, LARGE]), 12);
}

#[test]
fn a_drawing_is_refused_in_its_order() {
    for fault in [FEW_NUMBERS, FEW_BOUNDS] {
        assert_eq!(number(Operation::Extract, &[fault, NO_KIND]), 13);
        assert_eq!(number(Operation::Extract, &[fault, BOTTOMLESS]), 13);
        assert_eq!(number(Operation::Extract, &[fault, THREE_CELLS]), 13);
    }
    for fault in [few_answers(Operation::Extract), FEW_WORK] {
        assert_eq!(number(Operation::Extract, &[fault, NO_KIND]), 1);
        assert_eq!(number(Operation::Extract, &[fault, BOTTOMLESS]), 1);
        assert_eq!(number(Operation::Extract, &[fault, THREE_CELLS]), 3);
        assert_eq!(number(Operation::Extract, &[fault, NO_SAMPLES]), 13);
    }
    assert_eq!(number(Operation::Extract, &[NO_SAMPLES]), 4);
}

#[test]
fn a_drawing_above_minus_infinity_is_refused_before_its_cells_its_samples_and_its_room() {
    assert_eq!(number(Operation::Extract, &[BOTTOMLESS]), 1);
    for fault in [THREE_CELLS, NO_SAMPLES, NO_ROOM, NO_KIND] {
        assert_eq!(number(Operation::Extract, &[fault, BOTTOMLESS]), 1);
        assert_eq!(number(Operation::Extract, &[BOTTOMLESS, fault]), 1);
    }
    assert_eq!(number(Operation::Extract, &[NO_ROOM]), 13);
}

#[test]
fn a_lower_level_of_minus_infinity_is_refused_in_the_place_of_a_band() {
    for operation in changing() {
        assert_in_order(operation, &AROUND_BOTTOMLESS);
        for fault in [FEW_NUMBERS, FEW_BOUNDS, few_answers(operation), FEW_WORK] {
            assert_eq!(number(operation, &[BOTTOMLESS, fault]), 13, "{operation:?}");
        }
        assert_eq!(number(operation, &[BOTTOMLESS, NO_KIND]), 1, "{operation:?}");
        assert_eq!(number(operation, &[BOTTOMLESS, NO_ROOM]), 1, "{operation:?}");
    }
    for operation in [Operation::Regularize, Operation::ImproveLayout] {
        assert_eq!(number(operation, &[BOTTOMLESS, NO_PASS]), 1, "{operation:?}");
    }
}

#[test]
fn where_a_sheet_is_measured_a_lower_level_of_minus_infinity_is_no_fault() {
    for operation in MEASURING {
        assert_eq!(number(operation, &[BOTTOMLESS]), 0, "{operation:?}");
        for (fault, expected) in IN_ORDER {
            let expected = if (operation, expected) == (Operation::Corners, 11) { 0 } else { expected };
            assert_eq!(number(operation, &[BOTTOMLESS, fault]), expected, "{operation:?}");
        }
    }
}

#[test]
fn a_refusal_clears_each_slice_that_is_long_enough() {
    let (number, lent) = call(Operation::Quality, &[FEW_MEASURES]);
    assert_eq!((number, lent.answer.list()), (13, &[0; 10][..]));
    assert!(lent.measures.list().iter().all(|x| x.is_nan()));
    let (number, lent) = call(Operation::Quality, &[few_answers(Operation::Quality)]);
    assert_eq!((number, lent.answer.list()), (13, &[u64::MAX; 9][..]));
    assert_eq!(lent.measures.list(), [0.0; 4]);
}

/// The number of corners per point, right but for the faults, and the answer slice after it.
fn corners(faults: &[Fault]) -> (u32, Vec<u64>) {
    let (number, lent) = call(Operation::Corners, faults);
    (number, lent.answer.list().to_vec())
}

#[test]
fn corners_per_point_answer_in_two_elements() {
    const KEPT: u64 = u64::MAX;
    assert_eq!(corners(&[|input| input.answer.truncate(2)]), (0, vec![3, 0]));
    assert_eq!(corners(&[|input| input.answer.truncate(3)]), (0, vec![3, 0, KEPT]));
    assert_eq!(corners(&[|input| input.answer.truncate(3), NO_KIND]), (1, vec![0, 0, KEPT]));
    assert_eq!(corners(&[|input| input.answer.truncate(3), LARGE]), (12, vec![0, 0, KEPT]));
    assert_eq!(corners(&[|input| input.answer.truncate(1)]), (13, vec![KEPT]));
    assert_eq!(corners(&[|input| input.answer.truncate(1), LARGE]), (12, vec![KEPT]));
    assert_eq!(corners(&[|input| input.answer.truncate(1), NO_KIND]), (13, vec![KEPT]));
    assert_eq!(corners(&[|input| input.answer.clear()]), (13, vec![]));
}

/// Asserts that an operation is refused with each of these faults, and with two of them as with the earlier one.
fn assert_in_order(operation: Operation, faults: &[(Fault, u32)]) {
    for (i, &(earlier, expected)) in faults.iter().enumerate() {
        assert_eq!(number(operation, &[earlier]), expected, "{operation:?}");
        for &(later, _) in &faults[i..] {
            assert_eq!(number(operation, &[later, earlier]), expected, "{operation:?}");
        }
    }
}

#[test]
fn a_page_is_refused_in_the_order_of_quality() {
    assert_in_order(Operation::Quality, &IN_ORDER);
    assert_in_order(Operation::Page, &IN_ORDER);
}

#[test]
fn corners_per_point_are_refused_in_their_order() {
    assert_in_order(Operation::Corners, &IN_ORDER[..6]);
}

#[test]
fn corners_per_point_read_no_direction() {
    assert_eq!(number(Operation::Quality, &[FLAT]), 11);
    let (number, answer) = corners(&[FLAT]);
    assert_eq!((number, &answer[..2]), (0, &[3, 0][..]));
}

/// The bytes of stack that a call needs at most, as the header says.
const STACK: usize = 64 * 1024;

#[test]
fn calls_need_little_stack() {
    let called =
        std::thread::Builder::new().stack_size(STACK).spawn(|| OPERATIONS.map(|operation| number(operation, &[])));
    assert_eq!(called.unwrap().join().unwrap(), [0; OPERATIONS.len()]);
}
