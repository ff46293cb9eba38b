//! operations [CALLS] [SEED] [OPERATION]: the library's operations and the original on the same random sheets, every
//! bit compared: single calls, lists of calls on one sheet and drawings, CALLS of them, and behind these some calls
//! with a level that is not finite, and some swaps on crowded sheets. With the name of an operation, single calls of it
//! alone; with the word bottomless or crowded, such calls alone. The library's result and work slices are filled
//! before, and must hold the result and zeros after. Saved and opened jobs, and the sums of job files, are compared
//! with a second writer and a second reader; what makes, alters or draws a sheet is compared with a model where a level
//! is not finite; swaps on crowded sheets are compared with a second model too.
use operations::faults::Faults;
use operations::job_faults::{self, JobFaults};
use operations::{bottomless, crowded, draws, lists};
use oracle::driver::{self, Shares, Total};
use oracle::levels::Lowering;
use oracle::operation::Operation;
use oracle::random::Random;
use oracle::{arguments, inputs};
use std::process::ExitCode;

/// The operations that are compared by single calls, each with its share of 100 calls.
const SHARES: [(Operation, u64); 12] = [
    (Operation::Refine, 5),
    (Operation::Subdivide, 14),
    (Operation::Regularize, 10),
    (Operation::ImproveLayout, 10),
    (Operation::Coarsen, 11),
    (Operation::Rows, 6),
    (Operation::Quality, 10),
    (Operation::Corners, 5),
    (Operation::Page, 5),
    (Operation::Save, 4),
    (Operation::Open, 4),
    (Operation::Sum, 2),
];

/// How many calls a run has at least in which jobs at the limit are saved and opened too.
const LONG: u64 = 1000;

/// The shares of the calls in lists, and of the drawings with their rows.
const IN_LISTS: u64 = 12;
const DRAWN: u64 = 2;

/// How many calls with a level that is not finite there are for 100 others, and how many on crowded sheets.
const BOTTOMLESS: u64 = 2;
const CROWDED: u64 = 2;

/// Which calls are made.
#[derive(Debug, PartialEq)]
enum Calls {
    /// Those of all operations.
    All,
    /// Single calls of one.
    Of(Operation),
    /// Those with a level that is not finite.
    Bottomless,
    /// Swaps on crowded sheets.
    Crowded,
}

impl Calls {
    /// Those of a word, which names an operation or is `bottomless` or `crowded`.
    fn parse(word: &str) -> Result<Calls, String> {
        match word {
            "bottomless" => Ok(Calls::Bottomless),
            "crowded" => Ok(Calls::Crowded),
            _ => named(word).map(Calls::Of),
        }
    }
}

/// What a command line asks for.
struct Asked {
    calls: u64,
    seed: u64,
    which: Calls,
}

impl Asked {
    /// What the words of the command line ask for.
    fn parse() -> Result<Asked, String> {
        let which = arguments::word(3).map_or(Ok(Calls::All), |word| Calls::parse(&word))?;
        Ok(Asked { calls: arguments::number(1, 200_000)?, seed: arguments::number(2, 1)?, which })
    }

    /// Compares all calls; whether none differs.
    fn run(self) -> bool {
        let Asked { calls, seed, which } = self;
        driver::ends_well(match which {
            Calls::All => all_calls(calls, seed),
            Calls::Of(operation) => single_calls(&[(operation, 100)], calls, seed),
            Calls::Bottomless => bottomless::run(calls, seed),
            Calls::Crowded => crowded::run(calls, seed),
        })
    }
}

/// Compares single calls, lists and drawings, as many calls in all, some more with a level that is not finite, and some
/// more on crowded sheets.
fn all_calls(calls: u64, seed: u64) -> Total {
    let mut total = single_calls(&SHARES, calls, seed);
    total += lists::run(calls * IN_LISTS / 100, seed);
    total += draws::run(calls * DRAWN / 100, seed);
    total += bottomless::run(calls * BOTTOMLESS / 100, seed);
    total += crowded::run(calls * CROWDED / 100, seed);
    total
}

/// The operation of a name.
fn named(name: &str) -> Result<Operation, String> {
    let mut known = SHARES.iter().map(|share| share.0).chain([Operation::Extract]);
    known.find(|operation| operation.name() == name).ok_or_else(|| format!("{name} is no operation"))
}

/// Compares single calls, some of them with faults of lending, and some of those that measure with a lower level of
/// minus infinity; prints a line for each operation and one for the faults.
fn single_calls(shares: &Shares, calls: u64, seed: u64) -> Total {
    let (mut r, mut lowering) = (Random::new(seed), Lowering::new(seed));
    let draw = |operation| lowering.change(inputs::call(&mut r, operation));
    let (mut faults, mut job_faults) = (Faults::new(seed), JobFaults::new(seed));
    let mut total = driver::single_calls(shares, calls, draw, |call| match call.operation.is_of_a_job() {
        true => job_faults.ask(call),
        false => faults.ask(call),
    });
    faults.print("");
    job_faults.print();
    if calls >= LONG && shares.iter().any(|share| share.0.is_of_a_job()) {
        total += job_faults::at_the_limit();
    }
    total
}

fn main() -> ExitCode {
    match Asked::parse().map(Asked::run) {
        Ok(true) => ExitCode::SUCCESS,
        Ok(false) => ExitCode::FAILURE,
        Err(wrong) => {
            eprintln!("{wrong}: operations [CALLS] [SEED] [OPERATION, bottomless or crowded]");
            ExitCode::FAILURE
        }
    }
}

#[cfg(test)]
mod tests {
    use super::*;

    #[test]
    fn the_shares_are_100() {
        assert_eq!(SHARES.iter().map(|share| share.1).sum::<u64>() + IN_LISTS + DRAWN, 100);
    }

    #[test]
    fn operations_are_found_by_their_names() {
        assert_eq!(named("corners_per_point"), Ok(Operation::Corners));
        assert_eq!(named("page"), Ok(Operation::Page));
        let jobs = [Operation::Save, Operation::Open, Operation::Sum].map(Ok);
        assert_eq!(["save", "open", "sum"].map(named), jobs);
        assert_eq!(named("extract_candidate"), Ok(Operation::Extract));
        for wrong in ["corners", "sqrt", "8", ""] {
            assert_eq!(named(wrong), Err(format!("{wrong} is no operation")));
        }
    }

    #[test]
    fn a_word_is_an_operation_or_bottomless_or_crowded() {
        assert_eq!(Calls::parse("bottomless"), Ok(Calls::Bottomless));
        assert_eq!(Calls::parse("crowded"), Ok(Calls::Crowded));
        assert_eq!(Calls::parse("page"), Ok(Calls::Of(Operation::Page)));
        assert_eq!(Calls::parse("bottom"), Err("bottom is no operation".into()));
    }
}
