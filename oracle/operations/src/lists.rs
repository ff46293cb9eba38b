//! Lists of 2 to 8 random calls: each call takes the sheet that the one before it left. Where a list starts from a
//! closed sheet, demand 3 is looked at too.
use crate::chain::Chain;
use crate::closed::Claim;
use oracle::call::Answer;
use oracle::driver::{Tallies, Total};
use oracle::field::BandNumbers;
use oracle::operation::Operation;
use oracle::quads::QuadMesh;
use oracle::random::Random;
use oracle::{bands, drawn, rings, sheets};

/// The operations of the lists.
const OPERATIONS: [Operation; 9] = [
    Operation::Regularize,
    Operation::ImproveLayout,
    Operation::Coarsen,
    Operation::Subdivide,
    Operation::Refine,
    Operation::Rows,
    Operation::Quality,
    Operation::Corners,
    Operation::Page,
];

/// Those of which demand 3 says something; `refine` can make coordinates infinite.
const CLAIMED: [Operation; 4] =
    [Operation::Regularize, Operation::ImproveLayout, Operation::Coarsen, Operation::Subdivide];

/// The numbers of passes.
const PASSES: [u64; 6] = [0, 1, 1, 2, 3, 1000];

/// The most quads of a sheet that is made larger.
const GROWS: usize = 400;

/// What was seen of the lists.
#[derive(Default)]
struct Seen {
    tallies: Tallies,
    lists: u64,
    closed: u64,
    pinched: u64,
    broken: u64,
}

/// A sheet to start from, with its band: closed or drawn, as it is, opened, turned, pinched, or damaged.
fn start(r: &mut Random) -> (BandNumbers, QuadMesh) {
    let (band, mut sheet) = match r.below(4) {
        0 => (bands::band(r), sheets::closed(r)),
        1 => drawn::sheet(r),
        _ => drawn::fresh(r),
    };
    match r.below(8) {
        0 => sheets::open(r, &mut sheet),
        1 => sheets::damage(r, &mut sheet),
        2 | 3 => (0..1 + r.below(8)).for_each(|_| sheets::turn(r, &mut sheet)),
        4 => sheets::pinch(r, &mut sheet),
        _ => (),
    }
    (band, sheet)
}

/// The next operation; a sheet of many quads is not made larger.
fn next(r: &mut Random, sheet: &QuadMesh) -> Operation {
    let operation = r.pick(&OPERATIONS);
    match operation {
        Operation::Subdivide | Operation::Refine | Operation::Rows if sheet.quads.len() > GROWS => Operation::Quality,
        _ => operation,
    }
}

/// Whether the same call of `regularize` once more counts 0 and changes nothing.
fn is_settled(chain: &mut Chain, passes: u64, band: &BandNumbers, first: &Answer, tallies: &mut Tallies) -> bool {
    let again = chain.ask(Operation::Regularize, passes, band, tallies);
    again.is_none_or(|again| again.count == 0 && again.words == first.words)
}

/// How many swaps of `regularize` a call has made.
fn swaps(operation: Operation, answer: &Answer) -> u64 {
    if operation == Operation::Regularize { answer.count } else { 0 }
}

/// Calls the next operation; whether the two agree and the claim of a closed sheet is kept. What another operation
/// makes is a new start.
fn step(r: &mut Random, band: &BandNumbers, chain: &mut Chain, claim: &mut Option<Claim>, seen: &mut Seen) -> bool {
    let operation = next(r, chain.sheet());
    let passes = r.pick(&PASSES);
    let band = if r.one_in(8) { bands::any_band(r) } else { *band };
    let Some(answer) = chain.ask(operation, passes, &band, &mut seen.tallies) else {
        return false;
    };
    if answer.number != 0 || operation.measures() {
        return true;
    }
    let before = claim.filter(|_| CLAIMED.contains(&operation));
    *claim = Claim::of(chain.sheet());
    let swaps = swaps(operation, &answer);
    let enough = operation == Operation::Regularize && before.is_some_and(|before| before.is_settled_by(passes));
    let kept = before.is_none_or(|before| before.leads_to(*claim, swaps))
        && (!enough || is_settled(chain, passes, &band, &answer, &mut seen.tallies));
    if !kept {
        println!("{}, {passes} passes, {swaps} swaps: {before:?} leads to {claim:?}", operation.name());
        seen.broken += 1;
    }
    kept
}

/// One list.
fn list(r: &mut Random, seen: &mut Seen) {
    let (band, sheet) = start(r);
    let mut claim = Claim::of(&sheet);
    seen.lists += 1;
    seen.closed += u64::from(claim.is_some());
    seen.pinched += u64::from(rings::is_closed(&sheet) && !rings::is_tight(&sheet));
    let mut chain = Chain::of(sheet);
    for _ in 0..2 + r.below(7) {
        if !step(r, &band, &mut chain, &mut claim, seen) {
            return;
        }
    }
}

/// Compares lists of as many calls in all, or a few more; prints a line for each operation.
pub fn run(calls: u64, seed: u64) -> Total {
    let mut r = Random::new(seed);
    let mut seen = Seen::default();
    while seen.tallies.total().calls < calls {
        list(&mut r, &mut seen);
    }
    println!("{} lists, {} of them from closed sheets, {} of those broken", seen.lists, seen.closed, seen.broken);
    println!("{} lists from sheets that are closed but for a point of two rings", seen.pinched);
    seen.tallies.print("in lists, ");
    let mut total = seen.tallies.total();
    total.differ += seen.broken;
    total
}

#[cfg(test)]
mod tests {
    use super::*;

    #[test]
    fn lists_agree_and_keep_closed_sheets_closed() {
        let mut r = Random::new(3);
        let mut seen = Seen::default();
        (0..60).for_each(|_| list(&mut r, &mut seen));
        assert_eq!((seen.tallies.total().differ, seen.broken), (0, 0));
        assert!(30 < seen.closed && seen.closed < 60 && seen.pinched > 0);
    }
}
