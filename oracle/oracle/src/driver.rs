//! Compares an implementation with what is expected: counts the calls and shows those that differ.
use crate::call::{Answer, Call, expected};
use crate::inputs;
use crate::operation::Operation;
use crate::random::Random;
use crate::record::{self, Record};
use std::collections::BTreeMap;
use std::ops::AddAssign;

/// What is compared: each operation with its share of 100 calls.
pub type Shares = [(Operation, u64)];

/// What an implementation answers to a call; none where it has no such operation.
pub type Implementation = fn(&Call) -> Option<Answer>;

/// What is expected of a call, and what an implementation answers.
pub type Answers = (Answer, Option<Answer>);

/// How many differing calls of an operation are shown.
const SHOWN: u64 = 5;

/// How many calls were compared, and how many of them differ.
#[derive(Clone, Copy, Debug, Default)]
pub struct Total {
    /// The calls.
    pub calls: u64,
    /// Those that differ.
    pub differ: u64,
}

impl AddAssign for Total {
    fn add_assign(&mut self, other: Total) {
        self.calls += other.calls;
        self.differ += other.differ;
    }
}

/// What was seen of one operation.
#[derive(Default)]
struct Tally {
    total: Total,
    refused: BTreeMap<u8, u64>,
}

/// What was seen of each operation.
#[derive(Default)]
pub struct Tallies(BTreeMap<Operation, Tally>);

/// Words in hex.
fn hex(words: &[u64]) -> String {
    words.iter().map(|word| format!(" {word:016x}")).collect()
}

/// Shows a call on which the two differ: its record, and what the library answered.
fn show(call: &Call, expected: &Answer, got: Option<&Answer>) {
    let record = Record { call: call.clone(), answer: expected.clone() };
    println!("{} differs on the record{}", call.operation.name(), hex(&record::encode(&record)));
    match got {
        Some(got) => println!("the library answers {}:{}", got.number, hex(&got.words)),
        None => println!("the library has no such operation, or left something behind"),
    }
}

impl Tallies {
    /// Counts a call, and shows it if the two answers differ; whether they agree.
    pub fn count(&mut self, call: &Call, expected: &Answer, got: Option<&Answer>) -> bool {
        let tally = self.0.entry(call.operation).or_default();
        let agree = got.is_some_and(|got| expected.same(got, call.operation));
        tally.total += Total { calls: 1, differ: u64::from(!agree) };
        if expected.number != 0 {
            *tally.refused.entry(expected.number).or_default() += 1;
        }
        if !agree && tally.total.differ <= SHOWN {
            show(call, expected, got);
        }
        agree
    }

    /// The total over all operations.
    pub fn total(&self) -> Total {
        let mut sum = Total::default();
        self.0.values().for_each(|tally| sum += tally.total);
        sum
    }

    /// Prints a line for each operation, with a word in front.
    pub fn print(&self, front: &str) {
        for (operation, Tally { total, refused }) in &self.0 {
            let refused: String = refused.iter().map(|(number, count)| format!(", {count} refused {number}")).collect();
            println!("{front}{}: {} calls{refused}, {} differ", operation.name(), total.calls, total.differ);
        }
    }
}

/// Compares calls of all operations as they are drawn, each on a sheet of its own; prints a line for each operation.
pub fn single_calls(
    shares: &Shares,
    calls: u64,
    mut draw: impl FnMut(Operation) -> Call,
    mut ask: impl FnMut(&Call) -> Answers,
) -> Total {
    let (mut share, mut total) = (0, Total::default());
    for &(operation, part) in shares {
        share += part;
        let mut tallies = Tallies::default();
        for _ in total.calls..calls * share / 100 {
            let call = draw(operation);
            let (expected, got) = ask(&call);
            tallies.count(&call, &expected, got.as_ref());
        }
        tallies.print("");
        total += tallies.total();
    }
    total
}

/// Prints the last line; whether no call differs.
pub fn ends_well(total: Total) -> bool {
    println!("{} calls, {} differ", total.calls, total.differ);
    total.differ == 0
}

/// Compares random single calls and prints all lines; whether none differs.
pub fn run(shares: &Shares, calls: u64, seed: u64, answer: Implementation) -> bool {
    let mut r = Random::new(seed);
    let draw = |operation| inputs::call(&mut r, operation);
    ends_well(single_calls(shares, calls, draw, |call| (expected(call), answer(call))))
}
