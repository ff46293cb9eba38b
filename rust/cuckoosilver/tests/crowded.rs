//! A sheet of as many quads as one may have, round one point, by running the program.
mod common;
use common::{does, folder};
use quads::{Band, Field, Job, LIMIT, Sheet};
use std::fs;

/// The unit box.
fn unit_box() -> Band {
    let field = Field::Plane { a: 0.0, b: 0.0, c: 1.0, d: 0.0 };
    Band { field, low: [0.0; 3], high: [1.0; 3], lower: -1.0, upper: 2.0 }
}

/// So many quads: two along the edge from 0 to 1, and the others across the points 0, 2, 1 and 4.
fn crowded(quads: usize) -> Sheet {
    let mut all = vec![[0, 2, 1, 4]; quads];
    all[..2].copy_from_slice(&[[0, 1, 3, 5], [1, 0, 2, 4]]);
    let face = [[0.0, 0.0], [1.0, 0.5], [0.5, 0.0], [0.5, 0.5], [1.0, 0.0], [0.0, 0.5]];
    Sheet { points: face.map(|[x, y]| [x, y, 1.0]).to_vec(), quads: all, labels: vec![7; quads] }
}

/// How many quads of a sheet have a point for a corner.
fn valence(sheet: &Sheet, point: u32) -> usize {
    sheet.quads.iter().filter(|quad| quad.contains(&point)).count()
}

/// The sum of (quads at a point minus 4) squared.
fn squared_sum(sheet: &Sheet) -> u64 {
    (0..sheet.points.len()).map(|point| (valence(sheet, point as u32) as i64 - 4).pow(2) as u64).sum()
}

#[test]
fn a_swap_puts_all_quads_at_one_point() {
    let here = folder("crowded");
    let job = Job::new(&unit_box(), crowded(LIMIT));
    fs::write(here.join("before.job"), job.save().unwrap()).unwrap();
    let printed =
        does(&here, "--plane 0 0 1 0 open before.job regularize 3 save after.job sum before.job sum after.job");
    let after = Job::open(&fs::read(here.join("after.job")).unwrap()).unwrap().sheet;
    assert_eq!([valence(&job.sheet, 2), valence(&after, 2)], [LIMIT - 1, LIMIT]);
    let sums = [squared_sum(&job.sheet), squared_sum(&after)];
    assert_eq!(sums[0] - sums[1], 2 * (LIMIT as u64 - 2));
    let line = |sum: u64| format!("squared sum             {sum:>16}\n");
    assert_eq!(printed, sums.map(line).concat());
}
