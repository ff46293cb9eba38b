//! The points of the finer sheet, as `subdivide` smooths them.
use super::arithmetic::{Point, add, centre, mul, project, sum};
use super::sheet::{edges, masks};
use crate::band::Band;
use crate::cause::{Cause, Origin};
use crate::sheet::Sheet;

/// A point of the finer sheet.
struct Finer {
    origin: Origin,
    /// Its labels, a bit for each.
    mask: u8,
    /// Where it is before it is projected.
    at: Point,
}

/// The first point that is not finite once it is smoothed.
pub fn smoothed(sheet: &Sheet) -> Option<Cause> {
    let finer = Smoothing::new(sheet)?.finer();
    finer.iter().find(|finer| !finer.at.iter().all(|x| x.is_finite())).map(|finer| Cause::Smoothed(finer.origin))
}

/// The first point that cannot be projected.
pub fn astray(sheet: &Sheet, band: &Band) -> Option<Cause> {
    let finer = Smoothing::new(sheet)?.finer();
    finer.iter().find_map(|&Finer { origin, mask, at }| {
        let miss = project(band, at, mask).err()?;
        Some(Cause::Astray { origin, miss })
    })
}

/// What the smoothing of a sheet reads.
struct Smoothing<'a> {
    sheet: &'a Sheet,
    /// The centres of the quads.
    centres: Vec<Point>,
    /// The edges, each by its two points, with their two quads.
    edges: Vec<([u32; 2], [usize; 2])>,
}

impl Smoothing<'_> {
    /// That of a sheet; none if an edge has other than two quads.
    fn new(sheet: &Sheet) -> Option<Smoothing<'_>> {
        let edges = edges(sheet);
        let pair = |edge: &[([u32; 2], usize)]| match *edge {
            [(points, one), (_, other)] => Some((points, [one, other])),
            _ => None,
        };
        let edges = edges.chunk_by(|(one, _), (other, _)| one == other).map(pair).collect::<Option<_>>()?;
        Some(Smoothing { sheet, centres: sheet.quads.iter().map(|quad| centre(sheet, quad)).collect(), edges })
    }

    /// The points of the finer sheet: first those of the edges, then those of the quads, then those of the points.
    fn finer(&self) -> Vec<Finer> {
        let edges = self.edges.iter().map(|&(points, quads)| self.edge(points, quads));
        let quads = self.centres.iter().zip(&self.sheet.labels).enumerate();
        let quads = quads.map(|(quad, (&at, &label))| Finer { origin: Origin::Quad(quad), mask: 1 << label, at });
        let points = self.sheet.points.iter().zip(masks(self.sheet)).zip(self.around()).enumerate();
        let points = points.map(|(point, ((&p, mask), around))| {
            let at = around.smooth(p, mask);
            Finer { origin: Origin::Point(point), mask, at }
        });
        edges.chain(quads).chain(points).collect()
    }

    /// The new point of an edge: halfway on a crease, else the mean of its ends and of the centres of its quads.
    fn edge(&self, points: [u32; 2], quads: [usize; 2]) -> Finer {
        let [a, b] = points.map(|point| self.sheet.points[point as usize]);
        let ([one, other], [c, d]) = (quads.map(|quad| self.sheet.labels[quad]), quads.map(|quad| self.centres[quad]));
        let at = if one == other { mul(add(add(a, b), add(c, d)), 0.25) } else { mul(add(a, b), 0.5) };
        Finer { origin: Origin::Edge(points), mask: (1 << one) | (1 << other), at }
    }

    /// What each point has around it.
    fn around(&self) -> Vec<Around> {
        let mut around = vec![Around::default(); self.sheet.points.len()];
        for (corners, &centre) in self.sheet.quads.iter().zip(&self.centres) {
            corners.iter().for_each(|&corner| around[corner as usize].centres.push(centre));
        }
        for &([a, b], [one, other]) in &self.edges {
            let is_crease = self.sheet.labels[one] != self.sheet.labels[other];
            around[a as usize].meet(self.sheet.points[b as usize], is_crease);
            around[b as usize].meet(self.sheet.points[a as usize], is_crease);
        }
        around
    }
}

/// What a point has around it: the centres of its quads, and the other ends of its edges and of its crease edges.
#[derive(Clone, Default)]
struct Around {
    centres: Vec<Point>,
    ends: Vec<Point>,
    crease_ends: Vec<Point>,
}

impl Around {
    /// Takes the other end of an edge.
    fn meet(&mut self, end: Point, is_crease: bool) {
        self.ends.push(end);
        if is_crease {
            self.crease_ends.push(end);
        }
    }

    /// Where a point of these labels goes.
    fn smooth(&self, p: Point, mask: u8) -> Point {
        match self.crease_ends[..] {
            _ if mask.count_ones() > 2 => p,
            [] => self.inner(p),
            [a, b] => mul(add(mul(p, 6.0), add(a, b)), 0.125),
            _ => p,
        }
    }

    /// Where a point inside a patch goes, by the rule of Catmull and Clark.
    fn inner(&self, p: Point) -> Point {
        let n = self.centres.len() as f64;
        let face = mul(sum(self.centres.iter().copied()), 1.0 / n);
        let halves = self.ends.iter().map(|&end| mul(add(p, end), 0.5));
        let edge = mul(sum(halves), 1.0 / self.ends.len() as f64);
        mul(add(add(face, mul(edge, 2.0)), mul(p, n - 3.0)), 1.0 / n)
    }
}
