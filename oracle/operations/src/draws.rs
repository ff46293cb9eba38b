//! Drawings of sheets, and the rows on each sheet that is drawn.
use crate::chain::Chain;
use oracle::driver::{Tallies, Total};
use oracle::field::BandNumbers;
use oracle::operation::Operation;
use oracle::random::Random;
use oracle::{drawn, sheets};

/// The cells of large drawings, which end a run of some length.
const LARGE: [u64; 8] = [32, 32, 32, 48, 64, 96, 127, 128];

/// How many calls such a run has at least.
const LONG: u64 = 1000;

/// Draws a sheet and, if one is drawn, makes its rows.
fn draw(cells: u64, band: &BandNumbers, tallies: &mut Tallies) {
    let mut chain = Chain::of(sheets::empty());
    let answer = chain.ask(Operation::Extract, cells, band, tallies);
    if answer.is_some_and(|answer| answer.number == 0) {
        chain.ask(Operation::Rows, 0, band, tallies);
    }
}

/// Compares as many calls, or a few more; prints a line for each operation.
pub fn run(calls: u64, seed: u64) -> Total {
    let mut r = Random::new(seed);
    let mut tallies = Tallies::default();
    while tallies.total().calls < calls {
        draw(drawn::cells(&mut r), &drawn::any_band(&mut r), &mut tallies);
    }
    if calls >= LONG {
        LARGE.iter().for_each(|&cells| draw(cells, &drawn::band(&mut r), &mut tallies));
        draw(128, &drawn::noisy(), &mut tallies);
    }
    tallies.print("drawn, ");
    tallies.total()
}
