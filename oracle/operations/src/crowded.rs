//! Calls of `regularize` and `improve_layout` on crowded sheets, where a point has as many quads as there are. The
//! library, the original and a second pair of these operations must agree; half of the calls have faults of lending.
//! Behind them stand calls at the limit, where a stored valence is as large as it can be; there the original's sums
//! overflow, so that only the library and the second pair are compared.
use crate::faults::Faults;
use crate::library;
use oracle::call::{self, Call};
use oracle::crowds;
use oracle::driver::{Tallies, Total};
use oracle::operation::Operation;
use oracle::quads::QuadMesh;
use oracle::random::Random;
use oracle::swaps::{self, MOST};

/// The operations, which take turns.
pub const OPERATIONS: [Operation; 2] = [Operation::Regularize, Operation::ImproveLayout];

/// One call in so many has faults of lending.
const ONE_IN: usize = 2;

/// How many calls a run has at least in which sheets at the limit are cleaned up too.
const LONG: u64 = 1000;

/// What keeps the random numbers of these calls apart from those of others of the same seed.
const APART: u64 = 0x6372_6f77_6465;

/// What stands in front of each line.
const FRONT: &str = "crowded, ";

/// The calls at the limit: as many quads as a sheet may have, round one point, with one pass and with more.
fn at_the_limit() -> impl Iterator<Item = Call> {
    let most = MOST as usize;
    let sheets = [(1, crowds::crowded(most)), (1000, crowds::crowded(most)), (2, crowds::stacked(most))];
    let on =
        |(passes, sheet): (u64, QuadMesh)| OPERATIONS.map(|operation| crowds::at(operation, passes, sheet.clone()));
    sheets.into_iter().flat_map(on)
}

/// Compares the calls at the limit; the greatest valence that was stored in them.
fn run_at_the_limit(tallies: &mut Tallies) -> u32 {
    let mut greatest = 0;
    for call in at_the_limit() {
        let found = swaps::cleaned(&call);
        tallies.count(&call, &swaps::answer(&found), library::answer(&call).as_ref());
        greatest = greatest.max(found.map_or(0, |all| all.greatest));
    }
    greatest
}

/// Compares as many calls, and some at the limit behind them if they are many; prints a line for each operation, one
/// for the faults, and one that tells the greatest stored valence and how often all quads shared a point.
pub fn run(calls: u64, seed: u64) -> Total {
    let (mut r, mut faults) = (Random::new(seed ^ APART), Faults::among(&OPERATIONS, ONE_IN, seed ^ APART));
    let (mut tallies, mut apart, mut full, mut greatest) = (Tallies::default(), 0, 0, 0);
    for &operation in OPERATIONS.iter().cycle().take(calls as usize) {
        let call = crowds::call(&mut r, operation);
        let found = swaps::cleaned(&call);
        let without = swaps::answer(&found);
        apart += u64::from(without != call::expected(&call));
        let (expected, got) = faults.ask_expecting(&call, without);
        tallies.count(&call, &expected, got.as_ref());
        let stored = found.map_or(0, |all| all.greatest);
        full += u64::from(stored > 0 && stored as usize == call.sheet.quads.len());
        greatest = greatest.max(stored);
    }
    if calls >= LONG {
        greatest = greatest.max(run_at_the_limit(&mut tallies));
    }
    tallies.print(FRONT);
    faults.print(FRONT);
    println!("{FRONT}{apart} calls in which the original differs from the second pair");
    println!("{FRONT}{full} calls with a point of all quads; no stored valence is above {greatest}");
    let mut total = tallies.total();
    total.differ += apart;
    total
}

#[cfg(test)]
mod tests {
    use super::*;

    #[test]
    fn a_short_run_agrees() {
        let total = run(600, 1);
        assert_eq!((total.calls, total.differ), (600, 0));
    }

    #[test]
    fn the_limit_is_reached_and_not_passed() {
        let mut tallies = Tallies::default();
        assert_eq!(run_at_the_limit(&mut tallies), MOST);
        assert_eq!((tallies.total().calls, tallies.total().differ), (6, 0));
    }
}
