//! What a valid sheet has none of.
use quads::Quality;

/// A number of things.
fn counted(n: usize, thing: &str) -> String {
    format!("{n} {thing}{}", if n == 1 { "" } else { "s" })
}

/// Why a sheet is not valid: each count that is not 0; none of a sheet that is valid.
pub fn faults(quality: &Quality) -> Option<String> {
    let counts = [
        (quality.boundary_edges, "boundary edge"),
        (quality.nonmanifold_edges, "nonmanifold edge"),
        (quality.orientation_errors, "orientation error"),
        (quality.bad_vertex_links, "bad point"),
        (quality.duplicate_faces, "duplicate quad"),
        (quality.invalid_cells, "invalid quad"),
    ];
    let mut found: Vec<String> = counts.iter().filter(|(n, _)| *n > 0).map(|(n, thing)| counted(*n, thing)).collect();
    if !quality.minimum_sampled_jacobian.is_finite() {
        found.push("a Jacobian that is not finite".into());
    }
    (!quality.is_valid()).then(|| found.join(", "))
}

/// The defects that a change can leave in a sheet that was closed.
#[derive(Clone, Copy, Debug, Default, PartialEq)]
pub struct Defects {
    bad_points: usize,
    invalid_quads: usize,
}

impl Defects {
    /// Those of a sheet.
    pub fn of(quality: &Quality) -> Defects {
        Defects { bad_points: quality.bad_vertex_links, invalid_quads: quality.invalid_cells }
    }

    /// What there is more of than before; none where nothing is more.
    pub fn since(self, before: Defects) -> Option<String> {
        let more = |now: usize, before: usize, thing: &str| match before {
            0 => (now > 0).then(|| counted(now, thing)),
            _ => (now > before).then(|| format!("{}, where there were {before}", counted(now, thing))),
        };
        let points = more(self.bad_points, before.bad_points, "bad point");
        let quads = more(self.invalid_quads, before.invalid_quads, "invalid quad");
        let told: Vec<String> = points.into_iter().chain(quads).collect();
        (!told.is_empty()).then(|| told.join(", and "))
    }
}

#[cfg(test)]
mod tests {
    use super::*;

    fn defects(bad_points: usize, invalid_quads: usize) -> Defects {
        Defects { bad_points, invalid_quads }
    }

    #[test]
    fn what_was_there_before_is_not_told() {
        assert_eq!(defects(0, 0).since(defects(0, 0)), None);
        assert_eq!(defects(2, 13).since(defects(2, 13)), None);
        assert_eq!(defects(1, 5).since(defects(2, 13)), None);
    }

    #[test]
    fn what_is_more_is_told() {
        let told = |now: Defects, before: Defects| now.since(before).unwrap();
        assert_eq!(told(defects(1, 0), defects(0, 0)), "1 bad point");
        assert_eq!(told(defects(2, 13), defects(0, 0)), "2 bad points, and 13 invalid quads");
        assert_eq!(told(defects(1, 52), defects(1, 13)), "52 invalid quads, where there were 13");
    }
}
