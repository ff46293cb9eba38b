//! What is wrong with a sheet.
use crate::cause::Cause;
use crate::label::Label;
use crate::sheet::Sheet;

/// No point, no quad, other than one label a quad, or a point that is not finite.
pub fn bare(sheet: &Sheet) -> Option<Cause> {
    if sheet.points.is_empty() {
        return Some(Cause::NoPoint);
    }
    if sheet.quads.is_empty() {
        return Some(Cause::NoQuad);
    }
    labels(sheet).or_else(|| {
        let wrong = |at: &[f64; 3]| !at.iter().all(|x| x.is_finite());
        let point = sheet.points.iter().position(wrong)?;
        Some(Cause::Point { point, at: sheet.points[point] })
    })
}

/// Other than one label a quad.
pub fn labels(sheet: &Sheet) -> Option<Cause> {
    let (quads, labels) = (sheet.quads.len(), sheet.labels.len());
    (quads != labels).then_some(Cause::Labels { quads, labels })
}

/// The first quad with a label above 7, a corner out of range, or a corner twice.
pub fn corner(sheet: &Sheet) -> Option<Cause> {
    let points = sheet.points.len();
    let mut quads = sheet.quads.iter().zip(&sheet.labels).enumerate();
    quads.find_map(|(quad, (corners, &label))| {
        let above = (label > 7).then_some(Cause::Label { quad, label });
        above.or_else(|| out_of_range(quad, corners, points)).or_else(|| twice(quad, corners))
    })
}

/// The first corner out of range.
pub fn range(sheet: &Sheet) -> Option<Cause> {
    let points = sheet.points.len();
    sheet.quads.iter().enumerate().find_map(|(quad, corners)| out_of_range(quad, corners, points))
}

/// The first corner of a quad that names a point which is not there.
fn out_of_range(quad: usize, corners: &[u32; 4], points: usize) -> Option<Cause> {
    let corner = corners.iter().position(|&point| point as usize >= points)?;
    Some(Cause::Range { quad, corner, point: corners[corner], points })
}

/// The first two corners of a quad that are the same point.
fn twice(quad: usize, corners: &[u32; 4]) -> Option<Cause> {
    let mut pairs = (0..4).flat_map(|i| (i + 1..4).map(move |j| [i, j]));
    let same = pairs.find(|&[i, j]| corners[i] == corners[j])?;
    Some(Cause::Twice { quad, corners: same, point: corners[same[0]] })
}

/// The labels at each point, a bit for each.
pub fn masks(sheet: &Sheet) -> Vec<u8> {
    let mut masks = vec![0; sheet.points.len()];
    for (quad, &label) in sheet.quads.iter().zip(&sheet.labels) {
        for &corner in quad {
            masks[corner as usize] |= 1 << label;
        }
    }
    masks
}

/// Two opposite labels of a mask.
pub fn opposites(mask: u8) -> Option<[Label; 2]> {
    let both = |label: &Label| label.number().is_multiple_of(2) && (mask >> label.number()) & 3 == 3;
    Label::ALL.into_iter().find(both).map(|label| [label, label.opposite()])
}

/// The first point without a quad, or with opposite labels.
pub fn clash(sheet: &Sheet) -> Option<Cause> {
    masks(sheet).into_iter().enumerate().find_map(|(point, mask)| match mask {
        0 => Some(Cause::Unused(point)),
        _ => opposites(mask).map(|labels| Cause::Opposite { point, labels }),
    })
}

/// Each edge with each of its quads, the smaller point first, in order.
pub fn edges(sheet: &Sheet) -> Vec<([u32; 2], usize)> {
    let sides = |(quad, corners): (usize, &[u32; 4])| {
        let [a, b, c, d] = *corners;
        [[a, b], [b, c], [c, d], [d, a]].map(|[from, to]| ([from.min(to), from.max(to)], quad))
    };
    let mut edges: Vec<_> = sheet.quads.iter().enumerate().flat_map(sides).collect();
    edges.sort_unstable();
    edges
}

/// The first edge that has other than two quads.
pub fn edge(sheet: &Sheet) -> Option<Cause> {
    let edges = edges(sheet);
    let mut each = edges.chunk_by(|(one, _), (other, _)| one == other);
    let wrong = each.find(|quads| quads.len() != 2)?;
    Some(Cause::Edge { points: wrong[0].0, quads: wrong.len() })
}
