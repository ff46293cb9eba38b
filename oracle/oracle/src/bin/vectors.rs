//! vectors write FILE [SEED]: writes the sample.
//! vectors check FILE: works out again what is expected and compares.
use oracle::call::expected;
use oracle::record::{self, Record, shortened};
use oracle::sample;
use std::collections::BTreeMap;
use std::process::ExitCode;

/// One line for each operation and number, and the total.
fn table(records: &[Record]) -> String {
    let mut seen = BTreeMap::<_, usize>::new();
    for Record { call, answer } in records {
        *seen.entry((call.operation, answer.number)).or_default() += 1;
    }
    let line = |(&(operation, number), count): (&(oracle::operation::Operation, u8), &usize)| {
        format!("{} {number}: {count}\n", operation.name())
    };
    seen.iter().map(line).collect::<String>() + &format!("{} records", records.len())
}

/// Writes the sample of a seed.
fn write(path: &str, seed: &str) -> Result<String, String> {
    let seed = seed.parse().map_err(|_| format!("{seed} is no seed"))?;
    let records = sample::records(seed);
    let bytes = record::file(&records);
    std::fs::write(path, &bytes).map_err(|error| format!("{path}: {error}"))?;
    Ok(format!("{}, {} bytes", table(&records), bytes.len()))
}

/// Compares a stored sample with what is expected now.
fn check(path: &str) -> Result<String, String> {
    let bytes = std::fs::read(path).map_err(|error| format!("{path}: {error}"))?;
    let records = record::read(&bytes)?;
    for (i, Record { call, answer }) in records.iter().enumerate() {
        if !shortened(expected(call)).same(answer, call.operation) {
            return Err(format!("record {i} ({}) differs", call.operation.name()));
        }
    }
    Ok(format!("{}, all as expected", table(&records)))
}

fn main() -> ExitCode {
    let words: Vec<String> = std::env::args().skip(1).collect();
    let words: Vec<&str> = words.iter().map(String::as_str).collect();
    let default_seed = sample::SEED.to_string();
    let done = match words[..] {
        ["write", path] => write(path, &default_seed),
        ["write", path, seed] => write(path, seed),
        ["check", path] => check(path),
        _ => Err("vectors write FILE [SEED], or vectors check FILE".into()),
    };
    match done {
        Ok(said) => {
            println!("{said}");
            ExitCode::SUCCESS
        }
        Err(wrong) => {
            eprintln!("{wrong}");
            ExitCode::FAILURE
        }
    }
}
