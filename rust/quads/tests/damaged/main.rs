//! The face of the library under damaged lengths, counts and numbers: no call crashes, writes outside of what it is
//! lent, changes what it reads or leaves work behind. The calls follow from a seed: QUADS_SEED and QUADS_CALLS give
//! another seed and another number of calls.
mod call;
#[path = "../common/mod.rs"]
mod common;
mod guarded;
mod inputs;
mod job;
mod lent_job;
mod order;
mod page;
mod random;

use call::{Lent, OPERATIONS, Operation};
use random::Random;
use std::collections::BTreeMap;

/// A number from the environment, or a default.
fn number(name: &str, default: u64) -> u64 {
    std::env::var(name).map_or(default, |word| word.parse().unwrap_or_else(|_| panic!("{name}={word} is no number")))
}

/// Makes a call with up to three damages: its operation, its number and what it broke.
fn one(random: &mut Random, sheets: &[(quads::Sheet, quads::Band)]) -> (Operation, u32, Vec<&'static str>) {
    let operation = random.pick(&OPERATIONS);
    let from = random.below(sheets.len());
    let mut input = inputs::right(random, &sheets[from], operation);
    for _ in 0..random.pick(&[0, 1, 1, 2, 3]) {
        inputs::damage(random, &mut input);
    }
    if random.below(8) == 0 {
        inputs::damage_argument(random, &mut input, operation == Operation::ImproveLayout);
    }
    let margin = random.pick(&[0, 9]);
    let before = Lent::of(&input, margin);
    let mut lent = before.clone();
    let number = lent.call(operation, &input);
    let mut broken = lent.broken(&before, operation, number);
    let mut again = before.clone();
    if again.call(operation, &input) != number || !again.same(&lent) {
        broken.push("the same call answers otherwise");
    }
    (operation, number, broken)
}

#[test]
fn damaged_calls_are_answered() {
    let (calls, seed) = (number("QUADS_CALLS", 20_000), number("QUADS_SEED", 1));
    let (sheets, mut random) = (inputs::sheets(), Random(seed));
    let mut answered: BTreeMap<Operation, BTreeMap<u32, usize>> = BTreeMap::new();
    for call in 0..calls {
        let (operation, number, broken) = one(&mut random, &sheets);
        assert!(broken.is_empty(), "seed {seed}, call {call}: {operation:?} answers {number}: {broken:?}");
        *answered.entry(operation).or_default().entry(number).or_default() += 1;
    }
    for operation in OPERATIONS {
        let numbers = answered.remove(&operation).unwrap_or_default();
        println!("{operation:?}: calls by the number they answered: {numbers:?}");
        let is_met = |number| numbers.contains_key(&number);
        assert!(is_met(0) && is_met(13), "{operation:?} was not called both rightly and wrongly");
        assert!(is_met(14) == operation.reads_file(), "{operation:?} and trailers do not fit");
        assert!(is_met(17) == (operation == Operation::Open), "{operation:?} and sums do not fit");
    }
    println!("{calls} calls, seed {seed}, 0 broken");
}
