//! Calls with a level that is not finite, of every operation that takes a band. What makes, alters or draws a sheet
//! must refuse them with 1, `coarsen` without a pass looks at no band, and what measures a sheet must answer as the
//! original does; half of the calls have faults of lending too. No call may answer with 2.
use crate::faults::Faults;
use oracle::call::{Answer, Call};
use oracle::driver::{Tallies, Total};
use oracle::operation::Operation;
use oracle::random::Random;
use oracle::{bands, drawn, inputs, levels, sheets};

/// The operations, which take turns; `coarsen` has two, since it is another matter without a pass.
pub const OPERATIONS: [Operation; 10] = [
    Operation::Extract,
    Operation::Subdivide,
    Operation::Rows,
    Operation::Regularize,
    Operation::ImproveLayout,
    Operation::Coarsen,
    Operation::Quality,
    Operation::Corners,
    Operation::Page,
    Operation::Coarsen,
];

/// One call in so many has faults of lending.
const ONE_IN: usize = 2;

/// The number that is no longer answered.
const BOTTOMLESS: u8 = 2;

/// What keeps the random numbers of these calls apart from those of others of the same seed.
const APART: u64 = 0x626f_7474_6f6d;

/// What stands in front of each line.
const FRONT: &str = "bottomless, ";

/// A call with nothing wrong in its sheet and its band: on a drawn sheet or a closed one; of a drawing, one in three
/// with cells that are not allowed.
fn right(r: &mut Random, call: Call) -> Call {
    if call.operation == Operation::Extract {
        let argument = if r.one_in(3) { r.pick(&[0, 1, 3, 129, u64::MAX]) } else { 4 + r.below(5) as u64 };
        return Call { argument, band: drawn::band(r), ..call };
    }
    let (band, sheet) = if r.one_in(2) { drawn::fresh(r) } else { (bands::band(r), sheets::closed(r)) };
    Call { band, sheet, ..call }
}

/// A call with a level that is not finite: right but for that, or any call.
fn call(r: &mut Random, operation: Operation) -> Call {
    let any = inputs::call(r, operation);
    let call = if r.one_in(2) { right(r, any) } else { any };
    Call { band: levels::spoiled(r, call.band), ..call }
}

/// Whether an answer is the number that is no longer answered.
fn is_bottomless(answer: &Answer) -> bool {
    answer.number == BOTTOMLESS
}

/// Compares as many calls; prints a line for each operation, one for the faults, and one that tells how often 2 was
/// expected or answered. Such a call counts as one that differs.
pub fn run(calls: u64, seed: u64) -> Total {
    let (mut r, mut faults) = (Random::new(seed ^ APART), Faults::among(&OPERATIONS, ONE_IN, seed ^ APART));
    let (mut tallies, mut bottomless, mut agreed) = (Tallies::default(), 0, 0);
    for &operation in OPERATIONS.iter().cycle().take(calls as usize) {
        let call = call(&mut r, operation);
        let (expected, got) = faults.ask(&call);
        let is_two = is_bottomless(&expected) || got.as_ref().is_some_and(is_bottomless);
        let agree = tallies.count(&call, &expected, got.as_ref());
        bottomless += u64::from(is_two);
        agreed += u64::from(is_two && agree);
    }
    tallies.print(FRONT);
    faults.print(FRONT);
    println!("{FRONT}{bottomless} calls answered with {BOTTOMLESS}");
    let mut total = tallies.total();
    total.differ += agreed;
    total
}

#[cfg(test)]
mod tests {
    use super::*;
    use oracle::inner;
    use std::collections::BTreeSet;

    #[test]
    fn all_calls_have_a_level_that_is_not_finite_and_many_nothing_else() {
        let mut r = Random::new(1);
        for operation in OPERATIONS {
            let calls: Vec<Call> = (0..400).map(|_| call(&mut r, operation)).collect();
            assert!(calls.iter().all(|call| !levels::are_finite(&call.band)));
            let good = |call: &&Call| match operation {
                Operation::Extract => inner::validate(&call.band.band()).is_ok() && (4..=128).contains(&call.argument),
                _ => inner::constraints(&call.sheet, &call.band.band()).is_ok(),
            };
            let above = calls.iter().filter(good).count();
            let no_pass = calls.iter().filter(|call| call.argument == 0).count();
            assert!((100..350).contains(&above), "{operation:?}: {above}");
            assert!(operation != Operation::Coarsen || no_pass > 50, "{no_pass}");
        }
    }

    #[test]
    fn calls_agree_and_meet_their_numbers() {
        let (mut r, mut faults) = (Random::new(2), Faults::among(&OPERATIONS, ONE_IN, 2));
        let mut numbers = BTreeSet::new();
        for operation in OPERATIONS.into_iter().cycle().take(8000) {
            let call = call(&mut r, operation);
            let (expected, got) = faults.ask(&call);
            numbers.insert((operation, expected.number));
            assert!(got.is_some_and(|got| expected.same(&got, operation)), "{call:?}");
        }
        let of = |operation| numbers.iter().filter(|seen| seen.0 == operation).map(|seen| seen.1).collect::<Vec<u8>>();
        assert_eq!(of(Operation::Extract), [1, 13]);
        let changing = [Operation::Subdivide, Operation::Rows, Operation::Regularize, Operation::ImproveLayout];
        assert!(changing.into_iter().all(|operation| of(operation) == [1, 12, 13]));
        assert_eq!(of(Operation::Coarsen), [0, 1, 12, 13]);
        assert_eq!(of(Operation::Corners), [0, 1, 5, 6, 7, 12, 13]);
        assert_eq!([Operation::Quality, Operation::Page].map(of), [[0, 1, 5, 6, 7, 11, 12, 13]; 2]);
    }

    #[test]
    fn a_short_run_agrees() {
        let total = run(500, 3);
        assert_eq!((total.calls, total.differ), (500, 0));
    }
}
