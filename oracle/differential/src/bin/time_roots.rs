//! time-roots: nanoseconds for a root of a stream of numbers, the library's and the host's, the best of 7 runs.
use differential::library;
use oracle::floats;
use oracle::random::Random;
use std::hint::black_box;
use std::time::Instant;

/// How many numbers a stream has.
const LENGTH: usize = 4096;
/// How often a run goes through its stream.
const TURNS: usize = 200;
/// Of how many runs the best counts.
const RUNS: usize = 7;

/// The host's root, called as the library's is.
#[inline(never)]
fn host(x: f64) -> f64 {
    x.sqrt()
}

/// Nanoseconds for a root in one run.
fn run(root: fn(f64) -> f64, stream: &[f64]) -> f64 {
    let start = Instant::now();
    let mut sum = 0.0;
    for _ in 0..TURNS {
        sum += black_box(stream).iter().map(|&x| root(x)).sum::<f64>();
    }
    black_box(sum);
    start.elapsed().as_nanos() as f64 / (TURNS * stream.len()) as f64
}

/// The best of several runs.
fn best(root: fn(f64) -> f64, stream: &[f64]) -> f64 {
    (0..RUNS).map(|_| run(root, stream)).fold(f64::INFINITY, f64::min)
}

/// A kind of number, by its place in the stream.
type Kind = (&'static str, fn(&mut Random, usize) -> f64);

/// The streams that are timed.
const KINDS: [Kind; 5] = [
    ("2^-20 to 2^20", |r, _| r.between(1.0, 2.0) * 2f64.powi(r.below(40) as i32 - 20)),
    ("1, 2, 3, ..", |_, i| 1.0 + i as f64),
    ("within 10 places of 1", |r, _| f64::from_bits(1f64.to_bits() + r.below(21) as u64 - 10)),
    ("a third zero", |_, i| if i % 3 == 0 { 0.0 } else { i as f64 }),
    ("subnormal", |r, _| floats::subnormal(r).abs()),
];

fn main() {
    let mut r = Random::new(1);
    println!("{:<24}{:>12}{:>12}", "ns for a root", "library", "host");
    for (name, kind) in KINDS {
        let stream: Vec<f64> = (0..LENGTH).map(|i| kind(&mut r, i)).collect();
        println!("{name:<24}{:>12.2}{:>12.2}", best(library::sqrt, &stream), best(host, &stream));
    }
}
