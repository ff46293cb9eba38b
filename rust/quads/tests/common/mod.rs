//! The sheets and bands of the tests.
#![allow(dead_code, reason = "no test uses all of them")]
use quads::{Band, Counts, Field, Job, Quality, Sheet};
use std::collections::BTreeMap;

/// The counts of a sheet with one label a quad.
pub fn counts(points: usize, quads: usize) -> Counts {
    Counts { points, quads, labels: quads }
}

/// The unit cube: six quads labelled 2 to 7, all turned outwards.
pub fn cube() -> Sheet {
    let bit = |n: u32, i: u32| f64::from((n >> i) & 1);
    Sheet {
        points: (0..8).map(|n| [bit(n, 0), bit(n, 1), bit(n, 2)]).collect(),
        quads: vec![[0, 4, 6, 2], [1, 3, 7, 5], [0, 1, 5, 4], [2, 6, 7, 3], [0, 2, 3, 1], [4, 5, 7, 6]],
        labels: vec![2, 3, 4, 5, 6, 7],
    }
}

/// Two quads back to back.
pub fn pillow() -> Sheet {
    Sheet {
        points: vec![[0.0, 0.0, 0.0], [1.0, 0.0, 0.0], [1.0, 1.0, 0.0], [0.0, 1.0, 0.0]],
        quads: vec![[0, 1, 2, 3], [3, 2, 1, 0]],
        labels: vec![6, 6],
    }
}

/// Two sheets as one, of one label: point `b` of the second is put onto point `a` of the first.
pub fn joined(first: &Sheet, a: u32, second: &Sheet, b: u32) -> Sheet {
    let mut sheet = first.clone();
    let behind = first.points.len() as u32;
    let number = |v: u32| if v == b { a } else { behind + v - u32::from(v > b) };
    let others = second.points.iter().enumerate().filter(|(v, _)| *v != b as usize);
    sheet.points.extend(others.map(|(_, point)| point));
    sheet.quads.extend(second.quads.iter().map(|quad| quad.map(number)));
    sheet.labels = vec![6; first.quads.len() + second.quads.len()];
    sheet
}

/// A band that has the unit cube as its box.
pub fn unit_box() -> Band {
    let field = Field::Plane { a: 0.0, b: 0.0, c: 1.0, d: 0.0 };
    Band { field, low: [0.0; 3], high: [1.0; 3], lower: -1.0, upper: 2.0 }
}

/// A shell around the origin in the box from -1 to 1: two skins.
pub fn shell() -> Band {
    let field = Field::Ball { cx: 0.0, cy: 0.0, cz: 0.0, r: 0.0 };
    Band { field, low: [-1.0; 3], high: [1.0; 3], lower: 0.25, upper: 0.64 }
}

/// The shell, cut through its middle: one skin, which the cut closes.
pub fn bowl() -> Band {
    Band { high: [1.0, 1.0, 0.1], ..shell() }
}

/// The page of a record, by Rust's own formatting.
pub fn page_of(quality: &Quality) -> String {
    let names = ["quads", "irregular", "boundary", "nonmanifold", "orientation", "links", "duplicates", "invalid"];
    names.iter().zip(quality.counts()).map(|(name, count)| format!("{name:<24}{count:>16}\n")).collect()
}

/// The file of a job, by Rust's own bytes of numbers.
pub fn file_of(job: &Job) -> Vec<u8> {
    let Job { low, high, lower, upper, sheet } = job;
    let header = [&low[..], &high[..], &[*lower, *upper]].concat();
    let mut file: Vec<u8> = header.iter().flat_map(|x| x.to_le_bytes()).collect();
    let mut trailer = vec![file.len()];
    file.extend(sheet.points.as_flattened().iter().flat_map(|x| x.to_le_bytes()));
    trailer.push(file.len());
    file.extend(sheet.quads.as_flattened().iter().flat_map(|corner| corner.to_le_bytes()));
    trailer.push(file.len());
    file.extend(&sheet.labels);
    trailer.push(file.len());
    file.extend(trailer.into_iter().flat_map(|n| u32::try_from(n).unwrap().to_le_bytes()));
    file.extend(squared_sum(sheet).to_le_bytes());
    file.extend(28_u32.to_le_bytes());
    file
}

/// A file as it was saved before the sum was in it: a trailer of 20 bytes in place of one of 28.
pub fn without_sum(file: &[u8]) -> Vec<u8> {
    [&file[..file.len() - 12], &20_u32.to_le_bytes()].concat()
}

/// Where a number of a trailer stands: 0 to 3 are the starts of points, quads, labels and trailer, 4 is its length.
pub fn place_of(file: &[u8], place: usize) -> usize {
    let from_end = if file.ends_with(&28_u32.to_le_bytes()) { [28, 24, 20, 16, 4] } else { [20, 16, 12, 8, 4] };
    file.len() - from_end[place]
}

/// A file with another of these numbers in its trailer.
pub fn with_number(file: &[u8], place: usize, number: u32) -> Vec<u8> {
    let (mut file, at) = (file.to_vec(), place_of(file, place));
    file[at..at + 4].copy_from_slice(&number.to_le_bytes());
    file
}

/// A file with another sum in its trailer.
pub fn with_sum(file: &[u8], sum: u64) -> Vec<u8> {
    let (mut file, at) = (file.to_vec(), file.len() - 12);
    file[at..at + 8].copy_from_slice(&sum.to_le_bytes());
    file
}

/// So many quads, two or more, on the high z face of the unit box: two along the edge from 0 to 1, and the others
/// across the points 0, 2, 1 and 4. All but the first are at the point 2, and all of them once that edge is swapped.
pub fn crowded(quads: usize) -> Sheet {
    let mut all = vec![[0, 2, 1, 4]; quads];
    all[..2].copy_from_slice(&[[0, 1, 3, 5], [1, 0, 2, 4]]);
    let face = [[0.0, 0.0], [1.0, 0.5], [0.5, 0.0], [0.5, 0.5], [1.0, 0.0], [0.0, 0.5]];
    Sheet { points: face.map(|[x, y]| [x, y, 1.0]).to_vec(), quads: all, labels: vec![7; quads] }
}

/// How many quads each point has.
pub fn valences(sheet: &Sheet) -> Vec<usize> {
    let mut quads = vec![0; sheet.points.len()];
    sheet.quads.as_flattened().iter().for_each(|&corner| quads[corner as usize] += 1);
    quads
}

/// The quads at each edge.
pub fn edges(sheet: &Sheet) -> BTreeMap<(u32, u32), usize> {
    let mut edges = BTreeMap::new();
    for quad in &sheet.quads {
        for j in 0..4 {
            let (a, b) = (quad[j], quad[(j + 1) % 4]);
            *edges.entry((a.min(b), a.max(b))).or_default() += 1;
        }
    }
    edges
}

/// Points minus edges plus quads.
pub fn euler(sheet: &Sheet) -> i64 {
    sheet.points.len() as i64 - edges(sheet).len() as i64 + sheet.quads.len() as i64
}

/// The sum of (quads at a point minus 4) squared. A corner that names no point counts nowhere.
pub fn squared_sum(sheet: &Sheet) -> i64 {
    let mut quads = vec![0_i64; sheet.points.len()];
    for &corner in sheet.quads.as_flattened() {
        quads.get_mut(corner as usize).into_iter().for_each(|n| *n += 1);
    }
    quads.iter().map(|n| (n - 4).pow(2)).sum()
}
