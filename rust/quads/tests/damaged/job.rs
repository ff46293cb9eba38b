//! The slices of a job: the order of their refusals, and what a call leaves in them, whatever their lengths are.
use crate::call::{Lent, Operation};
use crate::common::{cube, file_of, unit_box, with_number, with_sum, without_sum};
use crate::guarded::is_zero;
use crate::inputs;
use crate::order::Fault;
use crate::random::Random;
use quads::{Job, LIMIT, Sheet};

/// Calls an operation on the cube, right but for the faults: its number, and what it left, which is as promised.
fn call(operation: Operation, faults: &[Fault]) -> (u32, Lent) {
    let mut input = inputs::right(&mut Random(1), &(cube(), unit_box()), operation);
    for fault in faults {
        fault(&mut input);
    }
    let before = Lent::of(&input, 3);
    let mut lent = before.clone();
    let number = lent.call(operation, &input);
    assert_eq!(lent.broken(&before, operation, number), [""; 0]);
    (number, lent)
}

/// The number of such a call.
fn number(operation: Operation, faults: &[Fault]) -> u32 {
    call(operation, faults).0
}

/// Counts that are above the limit.
const LARGE: [Fault; 4] = [
    |input| input.counts.points = LIMIT + 1,
    |input| input.counts.quads = LIMIT + 1,
    |input| input.counts.labels = LIMIT + 1,
    |input| input.counts.quads = usize::MAX,
];

/// Slices that are one element too short to save, and some that are empty.
const FEW_TO_SAVE: [Fault; 12] = [
    |input| input.header.truncate(7),
    |input| input.points.truncate(23),
    |input| input.quads.truncate(23),
    |input| input.labels.truncate(5),
    |input| input.file.truncate(385),
    |input| input.answer.truncate(3),
    |input| input.work.truncate(7),
    |input| input.header.clear(),
    |input| input.points.clear(),
    |input| input.file.clear(),
    |input| input.answer.clear(),
    |input| input.work.clear(),
];

/// Slices that are one element too short to open, and some that are empty.
const FEW_TO_OPEN: [Fault; 12] = [
    |input| input.new_header.truncate(7),
    |input| input.new_points.truncate(23),
    |input| input.new_quads.truncate(23),
    |input| input.new_labels.truncate(5),
    |input| input.answer.truncate(3),
    |input| input.work.truncate(7),
    |input| input.new_header.clear(),
    |input| input.new_points.clear(),
    |input| input.new_quads.clear(),
    |input| input.new_labels.clear(),
    |input| input.answer.clear(),
    |input| input.work.clear(),
];

/// Files whose trailer is wrong.
const BROKEN: [Fault; 13] = [
    |input| input.saved.clear(),
    |input| input.saved.truncate(83),
    |input| input.saved.truncate(385),
    |input| input.saved.push(0),
    |input| input.saved = with_number(&input.saved, 4, 20),
    |input| input.saved = with_number(&without_sum(&input.saved), 4, 28),
    |input| input.saved = with_number(&input.saved, 4, 24),
    |input| input.saved = with_number(&input.saved, 0, 63),
    |input| input.saved = with_number(&input.saved, 1, 257),
    |input| input.saved = with_number(&input.saved, 3, u32::MAX - 19),
    |input| input.saved.drain(..295).for_each(drop),
    |input| input.saved = [&input.saved[..374], &[0; 4], &24_u32.to_le_bytes()].concat(),
    |input| input.saved = [&input.saved[..374], &[0; 12], &32_u32.to_le_bytes()].concat(),
];

/// A file with more labels than the limit.
const LARGE_FILE: Fault = |input| {
    let sheet = Sheet { labels: vec![1; LIMIT + 1], ..cube() };
    input.saved = file_of(&Job::new(&unit_box(), sheet));
};

/// A file as it was saved before the sum was in it.
const OLD_FILE: Fault = |input| input.saved = without_sum(&input.saved);

/// Files whose sum is not that of their sheet.
const WRONG_SUM: [Fault; 5] = [
    |input| input.saved = with_sum(&input.saved, 0),
    |input| input.saved = with_sum(&input.saved, 9),
    |input| input.saved = with_sum(&input.saved, 8 + (1 << 32)),
    |input| input.saved[256] = 1,
    |input| input.saved[260] = 255,
];

#[test]
fn large_comes_before_every_short_in_saving() {
    assert_eq!(number(Operation::Save, &[]), 0);
    for short in FEW_TO_SAVE {
        assert_eq!(number(Operation::Save, &[short]), 13);
        for large in LARGE {
            assert_eq!(number(Operation::Save, &[short, large]), 12);
        }
    }
}

#[test]
fn a_trailer_comes_before_every_short_in_opening() {
    assert_eq!(number(Operation::Open, &[]), 0);
    for short in FEW_TO_OPEN {
        assert_eq!(number(Operation::Open, &[short]), 13);
        for broken in BROKEN {
            assert_eq!(number(Operation::Open, &[short, broken]), 14);
        }
    }
}

#[test]
fn large_comes_between_a_trailer_and_every_short_in_opening() {
    assert_eq!(number(Operation::Open, &[LARGE_FILE]), 12);
    for short in FEW_TO_OPEN {
        assert_eq!(number(Operation::Open, &[LARGE_FILE, short]), 12);
        assert_eq!(number(Operation::Open, &[LARGE_FILE, OLD_FILE, short]), 12);
    }
    assert_eq!(number(Operation::Open, &[LARGE_FILE, |input| input.saved.push(0)]), 14);
}

#[test]
fn a_sum_comes_behind_a_trailer_large_and_every_short() {
    for sum in WRONG_SUM {
        assert_eq!(number(Operation::Open, &[sum]), 17);
        assert_eq!(number(Operation::Open, &[LARGE_FILE, sum]), 12);
        for broken in BROKEN {
            assert_eq!(number(Operation::Open, &[sum, broken]), 14);
        }
        for short in FEW_TO_OPEN {
            assert_eq!(number(Operation::Open, &[sum, short]), 13);
        }
    }
}

#[test]
fn a_file_without_a_sum_is_refused_for_all_but_a_sum() {
    assert_eq!(number(Operation::Open, &[OLD_FILE]), 0);
    for short in FEW_TO_OPEN {
        assert_eq!(number(Operation::Open, &[OLD_FILE, short]), 13);
    }
    for sum in &WRONG_SUM[3..] {
        assert_eq!(number(Operation::Open, &[OLD_FILE, *sum]), 0);
    }
}

#[test]
fn a_sum_that_is_refused_leaves_zeros_everywhere() {
    let longer: Fault = |input| {
        input.new_header.resize(11, f64::NAN);
        input.work.resize(13, u32::MAX);
        input.answer.truncate(4);
    };
    for sum in WRONG_SUM {
        let (number, lent) = call(Operation::Open, &[sum, longer]);
        assert_eq!((number, lent.answer.list(), lent.work.list()), (17, &[0; 4][..], &[0; 13][..]));
        assert_eq!(lent.job.new_header.list(), [0.0; 11]);
    }
}

/// Work of one element too few, of as many as needed, and of five more, and whether it is enough.
const WORK: [(Fault, bool); 3] = [
    (|input| input.work.truncate(7), false),
    (|input| assert_eq!(input.work, [u32::MAX; 8]), true),
    (|input| input.work.resize(13, u32::MAX), true),
];

#[test]
fn the_work_is_one_element_a_point() {
    for (work, is_enough) in WORK {
        let expected = if is_enough { 0 } else { 13 };
        assert_eq!(number(Operation::Save, &[work]), expected);
        assert_eq!(number(Operation::Open, &[work]), expected);
        assert_eq!(number(Operation::Open, &[work, OLD_FILE]), expected);
    }
    let none: Fault = |input| {
        input.counts = quads::Counts::default();
        input.saved = file_of(&Job::default());
        input.work.clear();
    };
    assert_eq!([Operation::Save, Operation::Open].map(|operation| number(operation, &[none])), [0; 2]);
}

#[test]
fn the_work_is_zero_after_every_call() {
    let saving = LARGE.into_iter().chain(FEW_TO_SAVE).map(|fault| (Operation::Save, fault));
    let opening = BROKEN.into_iter().chain(FEW_TO_OPEN).chain(WRONG_SUM).chain([LARGE_FILE, OLD_FILE]);
    for (operation, fault) in saving.chain(opening.map(|fault| (Operation::Open, fault))) {
        for (work, _) in WORK {
            let (_, lent) = call(operation, &[work, fault]);
            assert!(is_zero(lent.work.list()));
        }
    }
}

/// The number of reading a sum, right but for the faults, and the answer slice after it.
fn sum(faults: &[Fault]) -> (u32, Vec<u64>) {
    let (number, lent) = call(Operation::Sum, faults);
    (number, lent.answer.list().to_vec())
}

#[test]
fn a_sum_is_told_in_two_elements() {
    const KEPT: u64 = u64::MAX;
    const LENGTHS: [Fault; 3] = [
        |input| assert_eq!(input.answer, [KEPT; 2]),
        |input| input.answer.push(KEPT),
        |input| input.answer.resize(5, KEPT),
    ];
    for (length, behind) in LENGTHS.into_iter().zip([0, 1, 3]) {
        let answer = |front: [u64; 2]| [&front[..], &vec![KEPT; behind]].concat();
        assert_eq!(sum(&[length]), (0, answer([1, 8])));
        assert_eq!(sum(&[length, OLD_FILE]), (0, answer([0, 0])));
        assert_eq!(sum(&[length, LARGE_FILE]), (0, answer([1, 8])));
        assert_eq!(sum(&[length, WRONG_SUM[2]]), (0, answer([1, 8 + (1 << 32)])));
        for broken in BROKEN {
            assert_eq!(sum(&[length, broken]), (14, answer([0, 0])));
        }
    }
    let short: [Fault; 2] = [|input| input.answer.truncate(1), |input| input.answer.clear()];
    for (short, left) in short.into_iter().zip([vec![KEPT], vec![]]) {
        assert_eq!(sum(&[short]), (13, left.clone()));
        assert_eq!(sum(&[short, OLD_FILE]), (13, left.clone()));
        assert_eq!(sum(&[short, BROKEN[0]]), (14, left.clone()));
    }
}

#[test]
fn no_band_and_no_sheet_is_asked_for() {
    let faults: [Fault; 6] = [
        |input| input.kind = 3,
        |input| input.header.fill(f64::NAN),
        |input| input.points[4] = f64::INFINITY,
        |input| input.quads[7] = u32::MAX,
        |input| input.labels.fill(255),
        |input| input.counts.labels = 2,
    ];
    for fault in faults {
        assert_eq!(number(Operation::Save, &[fault]), 0);
    }
    let nothing: Fault = |input| input.counts = quads::Counts::default();
    assert_eq!(call(Operation::Save, &[nothing]).1.answer.list()[..4], [92, 0, 0, 0]);
}

#[test]
fn zeros_stand_behind_the_file() {
    let file = file_of(&Job::new(&unit_box(), cube()));
    let longer: [Fault; 3] =
        [|input| input.file.push(255), |input| input.file.resize(400, 255), |input| input.file.resize(4096, 255)];
    for fault in longer {
        let (number, lent) = call(Operation::Save, &[fault]);
        let (saved, behind) = lent.job.file.list().split_at(386);
        assert_eq!((number, saved), (0, &file[..]));
        assert!(is_zero(behind) && !behind.is_empty());
    }
}

#[test]
fn zeros_stand_behind_what_is_opened() {
    let exact: Fault = |input| {
        input.new_points.truncate(24);
        input.new_quads.truncate(24);
        input.new_labels.truncate(6);
    };
    assert_eq!(number(Operation::Open, &[exact]), 0);
    let longer: Fault = |input| input.new_header.resize(11, f64::NAN);
    let (number, lent) = call(Operation::Open, &[longer]);
    assert_eq!((number, lent.job.new_header.list().len()), (0, 11));
    assert!(is_zero(&lent.job.new_header.list()[8..]));
}

#[test]
fn a_refusal_clears_the_answer_that_is_long_enough() {
    const KEPT: u64 = u64::MAX;
    let answers = |operation, faults: &[Fault]| call(operation, faults).1.answer.list().to_vec();
    let five: Fault = |input| input.answer.truncate(5);
    assert_eq!(answers(Operation::Save, &[five]), [386, 8, 6, 6, KEPT]);
    assert_eq!(answers(Operation::Open, &[five]), [0, 8, 6, 6, KEPT]);
    assert_eq!(answers(Operation::Save, &[five, LARGE[0]]), [0, 0, 0, 0, KEPT]);
    assert_eq!(answers(Operation::Save, &[five, FEW_TO_SAVE[4]]), [0, 0, 0, 0, KEPT]);
    assert_eq!(answers(Operation::Open, &[five, BROKEN[0]]), [0, 0, 0, 0, KEPT]);
    assert_eq!(answers(Operation::Open, &[five, FEW_TO_OPEN[0]]), [0, 0, 0, 0, KEPT]);
    assert_eq!(answers(Operation::Open, &[five, WRONG_SUM[0]]), [0, 0, 0, 0, KEPT]);
    let three: Fault = |input| input.answer.truncate(3);
    for (operation, faults) in
        [(Operation::Save, &[three][..]), (Operation::Save, &[three, LARGE[1]]), (Operation::Open, &[three, BROKEN[3]])]
    {
        assert_eq!(answers(operation, faults), [KEPT; 3]);
    }
}
