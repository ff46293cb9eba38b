//! roots [ROOTS] [SEED]: the library's square root against the host's, bit by bit.
use differential::library;
use oracle::arguments;
use oracle::floats;
use oracle::random::Random;
use std::process::ExitCode;

/// How many differing roots of a kind are shown.
const SHOWN: u64 = 5;

/// The digits of a float below its leading one.
const DIGITS: u64 = 1 << 52;

/// The roots of one kind.
#[derive(Default)]
struct Tally {
    roots: u64,
    differ: u64,
}

impl Tally {
    /// Compares one root.
    fn root(&mut self, x: f64) {
        let (ours, host) = (library::sqrt(x), x.sqrt());
        self.roots += 1;
        if ours.to_bits() != host.to_bits() && !(ours.is_nan() && host.is_nan()) {
            self.differ += 1;
            if self.differ <= SHOWN {
                println!("root of {:016x}: {:016x}, the host's {:016x}", x.to_bits(), ours.to_bits(), host.to_bits());
            }
        }
    }

    /// Prints one line.
    fn say(&self, kind: &str) {
        println!("{kind}: {} roots, {} differ", self.roots, self.differ);
    }
}

/// The inverse of an odd number modulo 2^64.
fn inverse(odd: u64) -> u64 {
    (0..6).fold(odd, |i, _| i.wrapping_mul(2u64.wrapping_sub(odd.wrapping_mul(i))))
}

/// The solution of c (c + 1) = k modulo 2^64 that has the parity of `start`, for an even k.
fn solution(k: u64, start: u64) -> u64 {
    (0..7).fold(start, |c, _| {
        let over = c.wrapping_mul(c).wrapping_add(c).wrapping_sub(k);
        c.wrapping_sub(over.wrapping_mul(inverse(2 * c + 1)))
    })
}

/// A number whose root lies k / 2c from the middle of two floats, by c (c + 1) = k modulo 2^52; its exponent is random.
fn near_half(r: &mut Random, k: i64, start: u64) -> Option<f64> {
    let c = i128::from(solution(k as u64, start) % DIGITS + DIGITS);
    let product = c * (c + 1) - i128::from(k);
    if product % i128::from(DIGITS) != 0 {
        return None;
    }
    let m = (product >> 52) as u64;
    let exponent = 23 + 2 * r.below(1000) as u64;
    match m >> 53 {
        0 => Some(f64::from_bits(m % DIGITS + (exponent << 52))),
        _ if m.is_multiple_of(2) => Some(f64::from_bits(m / 2 % DIGITS + ((exponent + 1) << 52))),
        _ => None,
    }
}

/// Roots as close to a half as any.
fn near_halves(r: &mut Random, most: u64) -> Tally {
    let mut tally = Tally::default();
    for k in (-1_000_000..=1_000_000).step_by(2) {
        for start in 0..2 {
            if let Some(x) = near_half(r, k, start).filter(|_| tally.roots < most) {
                tally.root(x);
            }
        }
    }
    tally
}

/// Numbers within 64 places of each power of two.
fn near_powers(most: u64) -> Tally {
    let mut tally = Tally::default();
    for exponent in 1..2047u64 {
        for bits in (exponent << 52) - 64..=(exponent << 52) + 64 {
            if tally.roots < most {
                tally.root(f64::from_bits(bits));
            }
        }
    }
    tally
}

/// A random square that is held exactly.
fn square(r: &mut Random) -> f64 {
    let root = (r.bits() >> 38) as f64 * 2f64.powi(r.below(960) as i32 - 480);
    root * root
}

/// A random number within 8 places of the square of another.
fn near_square(r: &mut Random) -> f64 {
    let root = f64::from_bits((r.bits() % DIGITS) | ((512 + r.below(1022) as u64) << 52));
    f64::from_bits((root * root).to_bits() + r.bits() % 17 - 8)
}

/// A kind of random numbers.
type Kind = (&'static str, fn(&mut Random) -> f64);

/// The random kinds, which share what is left of the roots.
const KINDS: [Kind; 5] = [
    ("any bits", floats::any),
    ("every exponent alike", |r| floats::finite(r).abs()),
    ("squares", square),
    ("near a square", near_square),
    ("subnormal", |r| floats::subnormal(r).abs()),
];

/// Compares roots of every kind; whether none differs.
fn run(roots: u64, seed: u64) -> bool {
    let mut r = Random::new(seed);
    let halves = near_halves(&mut r, roots);
    halves.say("near a half");
    let powers = near_powers(roots - halves.roots);
    powers.say("near a power of two");
    let left = roots - halves.roots - powers.roots;
    let mut tallies = vec![halves, powers];
    for (i, (name, kind)) in (0..).zip(KINDS) {
        let mut tally = Tally::default();
        for _ in left * i / 5..left * (i + 1) / 5 {
            tally.root(kind(&mut r));
        }
        tally.say(name);
        tallies.push(tally);
    }
    let differ: u64 = tallies.iter().map(|tally| tally.differ).sum();
    println!("{} roots, {differ} differ", tallies.iter().map(|tally| tally.roots).sum::<u64>());
    differ == 0
}

fn main() -> ExitCode {
    match (arguments::number(1, 20_000_000), arguments::number(2, 1)) {
        (Ok(roots), Ok(seed)) if run(roots, seed) => ExitCode::SUCCESS,
        (Ok(_), Ok(_)) => ExitCode::FAILURE,
        (Err(wrong), _) | (_, Err(wrong)) => {
            eprintln!("{wrong}: roots [ROOTS] [SEED]");
            ExitCode::FAILURE
        }
    }
}
