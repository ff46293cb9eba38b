//! differential [CALLS] [SEED]: the library's leaf functions and the original on the same random inputs, every bit
//! compared; the tests of a band and of a sheet are compared with a model where a level is not finite.
use differential::library;
use oracle::operation::Operation;
use oracle::{arguments, driver};
use std::process::ExitCode;

/// The operations that are compared, each with its share of 100 calls.
const SHARES: [(Operation, u64); 7] = [
    (Operation::Sqrt, 20),
    (Operation::Value, 20),
    (Operation::Gradient, 10),
    (Operation::Normal, 10),
    (Operation::Project, 20),
    (Operation::Validate, 10),
    (Operation::Constraints, 10),
];

fn main() -> ExitCode {
    match (arguments::number(1, 5_000_000), arguments::number(2, 1)) {
        (Ok(calls), Ok(seed)) if driver::run(&SHARES, calls, seed, library::answer) => ExitCode::SUCCESS,
        (Ok(_), Ok(_)) => ExitCode::FAILURE,
        (Err(wrong), _) | (_, Err(wrong)) => {
            eprintln!("{wrong}: differential [CALLS] [SEED]");
            ExitCode::FAILURE
        }
    }
}
