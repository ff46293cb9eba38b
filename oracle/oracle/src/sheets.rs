//! Random sheets, closed and damaged.
use crate::quads::QuadMesh;
use crate::random::Random;
use crate::{Point, floats};

/// A sheet with nothing in it.
pub fn empty() -> QuadMesh {
    QuadMesh { points: vec![], quads: vec![], labels: vec![] }
}

/// The unit cube, corner x + 2y + 4z, one label a face.
pub fn cube() -> QuadMesh {
    let corner = |i: usize| [(i & 1) as f64, (i >> 1 & 1) as f64, (i >> 2) as f64];
    QuadMesh {
        points: (0..8).map(corner).collect(),
        quads: vec![[0, 4, 6, 2], [1, 3, 7, 5], [0, 1, 5, 4], [2, 6, 7, 3], [0, 2, 3, 1], [4, 5, 7, 6]],
        labels: vec![2, 3, 4, 5, 6, 7],
    }
}

/// Two quads back to back.
pub fn pillow() -> QuadMesh {
    QuadMesh {
        points: vec![[0.0, 0.0, 0.0], [1.0, 0.0, 0.0], [1.0, 1.0, 0.0], [0.0, 1.0, 0.0]],
        quads: vec![[0, 1, 2, 3], [3, 2, 1, 0]],
        labels: vec![2, 2],
    }
}

/// Two pillows of different labels that share one point.
pub fn pillows() -> QuadMesh {
    let QuadMesh { mut points, mut quads, mut labels } = pillow();
    points.extend([[0.0, 0.0, 1.0], [0.0, 1.0, 1.0], [0.0, 1.0, 0.5]]);
    quads.extend([[0, 4, 5, 6], [6, 5, 4, 0]]);
    labels.extend([4, 4]);
    QuadMesh { points, quads, labels }
}

/// Two cubes of one label that share one point.
pub fn cubes() -> QuadMesh {
    let mut sheet = cube();
    sheet.labels.fill(2);
    attach(&mut sheet, 7, &cube(), 2);
    sheet
}

/// A torus of n times m quads.
pub fn torus(n: usize, m: usize) -> QuadMesh {
    let at = |i: usize, j: usize| (i % n) * m + j % m;
    let places: Vec<(usize, usize)> = (0..n).flat_map(|i| (0..m).map(move |j| (i, j))).collect();
    let point = |&(i, j): &(usize, usize)| {
        let (a, b) = (i as f64 / n as f64, j as f64 / m as f64);
        [0.2 + 0.6 * a, 0.2 + 0.6 * b, 0.5 + 0.2 * (a - b)]
    };
    QuadMesh {
        points: places.iter().map(point).collect(),
        quads: places.iter().map(|&(i, j)| [at(i, j), at(i + 1, j), at(i + 1, j + 1), at(i, j + 1)]).collect(),
        labels: vec![2; n * m],
    }
}

/// Two poles that n quads share: the highest valence for its size.
pub fn poles(n: usize) -> QuadMesh {
    let rim = (0..n).map(|i| i as f64 / n as f64).map(|t| [0.1 + 0.8 * t, 0.9 - 0.8 * t * t, 0.5]);
    QuadMesh {
        points: [[0.5, 0.5, 0.1], [0.5, 0.5, 0.9]].into_iter().chain(rim).collect(),
        quads: (0..n).map(|i| [0, 2 + i, 1, 2 + (i + 1) % n]).collect(),
        labels: vec![2; n],
    }
}

/// Point k on a circle around the middle of the low x face of the unit box, six to a turn, as seen from outside.
fn on_circle(radius: f64, k: usize) -> Point {
    let (sin, cos) = (std::f64::consts::TAU * (k % 6) as f64 / 6.0).sin_cos();
    [0.0, 0.5 + radius * cos, 0.5 - radius * sin]
}

/// One point that n well-shaped quads share, or up to two more; they wind around it, three to a turn, and the rim is
/// open. No swap keeps the shape.
pub fn fan(n: usize) -> QuadMesh {
    let n = n.next_multiple_of(3);
    let rim = (0..2 * n).map(|k| on_circle(0.4, k));
    let at = |k: usize| 1 + k % (2 * n);
    QuadMesh {
        points: [[0.0, 0.5, 0.5]].into_iter().chain(rim).collect(),
        quads: (0..n).map(|i| [0, at(2 * i), at(2 * i + 1), at(2 * i + 2)]).collect(),
        labels: vec![2; n],
    }
}

/// A fan of n quads, or up to two more, with as many around it: its spokes end in points of four quads, with points
/// of two between them at this radius. A merge of the first point with any of those would gain.
fn spoked(n: usize, radius: f64) -> QuadMesh {
    let n = n.next_multiple_of(3);
    let ring = |radius, turn| (0..n).map(move |i| on_circle(radius, 2 * i + turn));
    let (spoke, between, outer) = (|i: usize| 1 + i % n, |i: usize| 1 + n + i, |i: usize| 1 + 2 * n + i);
    let hub = [[0.0, 0.5, 0.5]].into_iter();
    let inner = (0..n).map(|i| [0, spoke(i), between(i), spoke(i + 1)]);
    QuadMesh {
        points: hub.chain(ring(0.3, 0)).chain(ring(radius, 1)).chain(ring(0.45, 1)).collect(),
        quads: inner.chain((0..n).map(|i| [spoke(i), outer(i), spoke(i + 1), between(i)])).collect(),
        labels: vec![2; 2 * n],
    }
}

/// Such a sheet whose first quads lose their shape in each of these merges.
pub fn wheel(n: usize) -> QuadMesh {
    spoked(n, 0.35)
}

/// Such a sheet whose quads keep their shape in each of these merges, but for one small quad at the first point,
/// behind all others.
pub fn guarded_wheel(n: usize) -> QuadMesh {
    let mut sheet = spoked(n, 0.2);
    let first = sheet.points.len();
    sheet.points.extend((0..3).map(|k| on_circle(0.003, k)));
    sheet.quads.push([0, first, first + 1, first + 2]);
    sheet.labels.push(2);
    sheet
}

/// Splits a quad by a new point tied to two opposite corners.
fn split(sheet: &mut QuadMesh, quad: usize) {
    let [a, b, c, d] = sheet.quads[quad];
    let (p, q) = (sheet.points[a], sheet.points[c]);
    let x = sheet.points.len();
    sheet.points.push(std::array::from_fn(|i| 0.5 * (p[i] + q[i])));
    sheet.quads[quad] = [a, b, c, x];
    sheet.quads.push([a, x, c, d]);
    sheet.labels.push(sheet.labels[quad]);
}

/// Labels of which no two are opposite.
fn relabel(r: &mut Random, sheet: &mut QuadMesh) {
    let one_of_each: [u8; 4] = std::array::from_fn(|pair| (2 * pair + r.below(2)) as u8);
    let kinds = 1 + r.below(4);
    for label in &mut sheet.labels {
        *label = one_of_each[r.below(kinds)];
    }
}

/// A closed sheet: a small one, some of its quads split.
pub fn closed(r: &mut Random) -> QuadMesh {
    let mut sheet = match r.below(5) {
        0 => cube(),
        1 => pillow(),
        2 => torus(3 + r.below(2), 3),
        3 => poles(2 + r.below(12)),
        _ => torus(3, 3),
    };
    for _ in 0..r.below(4) {
        let quad = r.below(sheet.quads.len());
        split(&mut sheet, quad);
    }
    if r.one_in(2) {
        relabel(r, &mut sheet);
    }
    sheet
}

/// The corners around two quads that run opposite ways along edge k of the first: from that edge's start round the
/// second, then round the first.
fn corners_around(sheet: &QuadMesh, first: usize, k: usize) -> Option<(usize, [usize; 6])> {
    let q = sheet.quads.get(first)?;
    let back = |p: &[usize; 4]| (0..4).find(|&m| [p[m], p[(m + 1) % 4]] == [q[(k + 1) % 4], q[k]]);
    let (second, m) = sheet.quads.iter().enumerate().find_map(|(j, p)| Some((j, back(p)?)))?;
    let p = sheet.quads[second];
    Some((second, [q[k], p[(m + 2) % 4], p[(m + 3) % 4], q[(k + 1) % 4], q[(k + 2) % 4], q[(k + 3) % 4]]))
}

/// Turns a random edge between two quads of one label, if it has six corners around it; more or fewer quads meet at
/// its ends then.
pub fn turn(r: &mut Random, sheet: &mut QuadMesh) {
    let (first, k) = (r.below(sheet.quads.len().max(1)), r.below(4));
    let Some((second, six)) = corners_around(sheet, first, k) else { return };
    let differ = (0..6).all(|i| (0..i).all(|j| six[i] != six[j]));
    if differ && sheet.labels.get(first) == sheet.labels.get(second) {
        sheet.quads[first] = [six[1], six[2], six[3], six[4]];
        sheet.quads[second] = [six[1], six[4], six[5], six[0]];
    }
}

/// Puts the point b of a sheet onto the point a; the last point takes the number of b.
fn join(sheet: &mut QuadMesh, a: usize, b: usize) {
    let last = sheet.points.len() - 1;
    sheet.points.swap_remove(b);
    for v in sheet.quads.iter_mut().flatten() {
        *v = if *v == b { a } else { *v };
        *v = if *v == last { b } else { *v };
    }
}

/// The quads at a point.
fn quads_at(sheet: &QuadMesh, point: usize) -> impl Iterator<Item = (&[usize; 4], u8)> {
    let all = sheet.quads.iter().zip(sheet.labels.iter().copied());
    all.filter(move |(quad, _)| quad.contains(&point))
}

/// Whether the quads at two points have no point in common and no two opposite labels.
fn are_apart(sheet: &QuadMesh, a: usize, b: usize) -> bool {
    quads_at(sheet, a)
        .all(|(p, l)| quads_at(sheet, b).all(|(q, m)| p.iter().all(|v| !q.contains(v)) && (l == m || l / 2 != m / 2)))
}

/// Adds another sheet, all of one label, whose first point is put onto the point a.
fn attach(sheet: &mut QuadMesh, a: usize, other: &QuadMesh, label: u8) {
    let first = sheet.points.len();
    sheet.points.extend(&other.points);
    sheet.quads.extend(other.quads.iter().map(|quad| quad.map(|v| first + v)));
    sheet.labels.extend(other.quads.iter().map(|_| label));
    join(sheet, a, first);
}

/// Puts two random points of a sheet into one if their quads are apart; else adds a small sheet that shares a point.
/// Each edge keeps its quads, and where two points had a ring each, one point has two.
pub fn pinch(r: &mut Random, sheet: &mut QuadMesh) {
    let n = sheet.points.len().max(1);
    let (a, b) = (r.below(n), r.below(n));
    let label = quads_at(sheet, a).next().map(|(_, label)| label);
    if a != b && are_apart(sheet, a, b) {
        join(sheet, a, b);
    } else if let Some(label) = label {
        let other = if r.one_in(2) { cube() } else { pillow() };
        attach(sheet, a, &other, label);
    }
}

/// Takes up to three quads out of a sheet, but not the last one.
pub fn open(r: &mut Random, sheet: &mut QuadMesh) {
    for _ in 0..1 + r.below(3) {
        let quad = r.below(sheet.quads.len().max(1));
        if sheet.quads.len() > 1 && sheet.labels.len() > quad {
            sheet.quads.remove(quad);
            sheet.labels.remove(quad);
        }
    }
}

/// One damage to a sheet; a list that is empty stays so.
pub fn damage(r: &mut Random, sheet: &mut QuadMesh) {
    let points = sheet.points.len();
    let hostile: Point = std::array::from_fn(|_| floats::hostile(r));
    let corner = r.below(4);
    let kind = r.below(14);
    if kind < 3
        && let Some(p) = pick_mut(r, &mut sheet.points)
    {
        p[corner % 3] = [floats::limit(r), floats::subnormal(r), hostile[0]][kind];
    }
    if (3..8).contains(&kind)
        && let Some(q) = pick_mut(r, &mut sheet.quads)
    {
        let twice = q[(corner + 1 + r.below(3)) % 4];
        q[corner] = [points, points + 1, u32::MAX as usize, twice, r.below(points + 1)][kind - 3];
    }
    if (8..10).contains(&kind)
        && let Some(l) = pick_mut(r, &mut sheet.labels)
    {
        *l = if kind == 8 { 8 + r.below(248) as u8 } else { r.below(8) as u8 };
    }
    match kind {
        10 => sheet.labels.truncate(sheet.labels.len().saturating_sub(1)),
        11 => sheet.labels.push(2),
        12 => sheet.points.push([0.5; 3]),
        13 => empty_one(r, sheet),
        _ => (),
    }
}

/// A random element to be changed, if there is one.
fn pick_mut<'a, T>(r: &mut Random, list: &'a mut [T]) -> Option<&'a mut T> {
    let n = list.len().max(1);
    list.get_mut(r.below(n))
}

/// Empties one of the lists, or the quads with their labels.
fn empty_one(r: &mut Random, sheet: &mut QuadMesh) {
    match r.below(4) {
        0 => sheet.points.clear(),
        1 => sheet.quads.clear(),
        2 => sheet.labels.clear(),
        _ => {
            sheet.quads.clear();
            sheet.labels.clear();
        }
    }
}

/// Any sheet: closed, pinched at a point, or with one or two damages.
pub fn any(r: &mut Random) -> QuadMesh {
    let mut sheet = closed(r);
    if r.one_in(8) {
        pinch(r, &mut sheet);
    }
    for _ in 0..r.pick(&[0, 0, 1, 1, 1, 2]) {
        damage(r, &mut sheet);
    }
    sheet
}
