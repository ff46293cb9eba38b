//! The copies that rows make of the points between labels.
use super::arithmetic::{Point, add, centre, mul, project, sub};
use super::sheet::{edges, masks};
use crate::band::Band;
use crate::cause::Cause;
use crate::label::Label;
use crate::sheet::Sheet;
use std::collections::BTreeMap;

/// The first copy that finds no place in its patch.
pub fn row(sheet: &Sheet, band: &Band) -> Option<Cause> {
    let stuck = |(point, label, delta): &(usize, u8, Point)| !finds_place(band, sheet.points[*point], *delta, *label);
    let (point, label, _) = copies(sheet).into_iter().find(stuck)?;
    Some(Cause::Row { point, label: Label::try_from(label).ok()? })
}

/// The copies in their order: the point, the label, and the way to the mean centre of the quads of both.
fn copies(sheet: &Sheet) -> Vec<(usize, u8, Point)> {
    let (masks, mut sums) = (masks(sheet), BTreeMap::<(usize, u8), (Point, f64)>::new());
    for (quad, &label) in sheet.quads.iter().zip(&sheet.labels) {
        let centre = centre(sheet, quad);
        for point in quad.map(|corner| corner as usize).into_iter().filter(|&point| masks[point].count_ones() > 1) {
            let (sum, count) = sums.entry((point, label)).or_default();
            (*sum, *count) = (add(*sum, centre), *count + 1.0);
        }
    }
    let way = |point: usize, (sum, count)| sub(mul(sum, 1.0 / count), sheet.points[point]);
    sums.into_iter().map(|((point, label), sum)| (point, label, way(point, sum))).collect()
}

/// Whether one of twenty steps, each half as long as the one before, can be projected.
fn finds_place(band: &Band, p: Point, delta: Point, label: u8) -> bool {
    let mut step = 0.7;
    for _ in 0..20 {
        if project(band, add(p, mul(delta, step)), 1 << label).is_ok() {
            return true;
        }
        step *= 0.5;
    }
    false
}

/// The first point of several labels that lies on no edge between two of them.
pub fn borderless(sheet: &Sheet) -> Option<Cause> {
    let mut inner: Vec<bool> = masks(sheet).iter().map(|mask| mask.count_ones() > 1).collect();
    for edge in edges(sheet).chunk_by(|(one, _), (other, _)| one == other) {
        if edge.iter().any(|&(_, quad)| sheet.labels[quad] != sheet.labels[edge[0].1]) {
            edge[0].0.iter().for_each(|&point| inner[point as usize] = false);
        }
    }
    inner.into_iter().position(|inner| inner).map(Cause::Borderless)
}
