//! The record of `quality`.

/// What `quality` measures of a sheet. The levels of its band are not in it: a lower level of minus infinity gives what
/// a finite one gives.
#[derive(Clone, Copy, Debug, PartialEq)]
pub struct Quality {
    /// The quads.
    pub quads: usize,
    /// Points that have other than four quads.
    pub irregular_vertices: usize,
    /// Edges of one quad.
    pub boundary_edges: usize,
    /// Edges of more than two quads.
    pub nonmanifold_edges: usize,
    /// Edges of two quads that run the same way.
    pub orientation_errors: usize,
    /// Points whose quads are not one ring.
    pub bad_vertex_links: usize,
    /// Quads with the corners of an earlier one.
    pub duplicate_faces: usize,
    /// The least shape of a quad.
    pub minimum_shape: f64,
    /// The score, shape times size, below which one quad in twenty lies.
    pub shape_size_p05: f64,
    /// The mean score.
    pub shape_size_mean: f64,
    /// The least Jacobian, sampled at 5 by 5 places of each quad.
    pub minimum_sampled_jacobian: f64,
    /// Quads that are turned over or collapsed somewhere.
    pub invalid_cells: usize,
    /// Whether every edge has exactly two quads that run opposite ways, and the quads of every point are one ring: the
    /// first is that no edge is counted above, the second that no link is bad. From such a sheet on, no list of
    /// `regularize`, `improve_layout`, `coarsen` and `subdivide` opens it or joins its skins.
    pub tight: bool,
    /// What the library answers for `is_valid`.
    valid: bool,
}

impl Quality {
    /// Whether the sheet is closed, each point's quads are one ring, no quad comes twice and none is turned over or
    /// collapsed.
    pub fn is_valid(&self) -> bool {
        self.valid
    }

    /// The eight counts in the record's order.
    pub fn counts(&self) -> [usize; 8] {
        [
            self.quads,
            self.irregular_vertices,
            self.boundary_edges,
            self.nonmanifold_edges,
            self.orientation_errors,
            self.bad_vertex_links,
            self.duplicate_faces,
            self.invalid_cells,
        ]
    }

    /// The record of the library's ten numbers and four measures.
    pub(crate) fn new(answer: [u64; 10], measures: [f64; 4]) -> Quality {
        let [
            quads,
            irregular_vertices,
            boundary_edges,
            nonmanifold_edges,
            orientation_errors,
            bad_vertex_links,
            duplicate_faces,
            invalid_cells,
            tight,
            valid,
        ] = answer.map(|n| n as usize);
        let [minimum_shape, shape_size_p05, shape_size_mean, minimum_sampled_jacobian] = measures;
        Quality {
            quads,
            irregular_vertices,
            boundary_edges,
            nonmanifold_edges,
            orientation_errors,
            bad_vertex_links,
            duplicate_faces,
            minimum_shape,
            shape_size_p05,
            shape_size_mean,
            minimum_sampled_jacobian,
            invalid_cells,
            tight: tight == 1,
            valid: valid == 1,
        }
    }
}

#[cfg(test)]
mod tests {
    use super::*;

    #[test]
    fn the_record_has_the_librarys_order() {
        let quality = Quality::new([1, 2, 3, 4, 5, 6, 7, 8, 1, 0], [0.1, 0.2, 0.3, 0.4]);
        assert_eq!(quality.counts(), [1, 2, 3, 4, 5, 6, 7, 8]);
        assert_eq!((quality.minimum_shape, quality.minimum_sampled_jacobian), (0.1, 0.4));
        assert!(quality.tight && !quality.is_valid());
    }
}
