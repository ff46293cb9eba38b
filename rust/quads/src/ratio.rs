//! A quotient with its remainder.

/// What `corners_per_point` gives: 4 × quads ÷ points as a whole number and the exact remainder, so that quotient ×
/// points + remainder is 4 × quads.
///
/// ```
/// use quads::{Band, Field, Ratio, Sheet};
///
/// let field = Field::Ball { cx: 0.0, cy: 0.0, cz: 0.0, r: 0.0 };
/// let band = Band { field, low: [-1.0; 3], high: [1.0; 3], lower: 0.25, upper: 0.64 };
/// let sheet = Sheet::extract_candidate(&band, 16)?;
/// let Ratio { quotient, remainder } = sheet.corners_per_point(&band)?;
/// assert_eq!(quotient * sheet.points.len() + remainder, 4 * sheet.quads.len());
/// # Ok::<(), quads::Refused>(())
/// ```
#[derive(Clone, Copy, Debug, PartialEq, Eq)]
pub struct Ratio {
    /// The whole number of corners that each point has.
    pub quotient: usize,
    /// The corners that are left, fewer than there are points.
    pub remainder: usize,
}

impl Ratio {
    /// The ratio of the library's two numbers.
    pub(crate) fn new(answer: [u64; 2]) -> Ratio {
        let [quotient, remainder] = answer.map(|n| n as usize);
        Ratio { quotient, remainder }
    }
}

#[cfg(test)]
mod tests {
    use super::*;

    #[test]
    fn the_quotient_stands_first() {
        assert_eq!(Ratio::new([3, 18]), Ratio { quotient: 3, remainder: 18 });
    }
}
