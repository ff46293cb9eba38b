//! Corners per point, which the original does not have: the corners of the quads, dealt out to the points. What is
//! refused is what the original's tests of a lent sheet refuse.
use crate::quads::QuadMesh;

/// Deals the corners of all quads out to the points, one after the other, round after round: the whole rounds, and the
/// corners that are left for the points of one more.
pub fn dealt(sheet: &QuadMesh) -> [u64; 2] {
    let (mut rounds, mut left) = (0, 0);
    for _ in sheet.quads.iter().flatten() {
        left += 1;
        if left == sheet.points.len() as u64 {
            rounds += 1;
            left = 0;
        }
    }
    [rounds, left]
}

#[cfg(test)]
mod tests {
    use super::*;
    use crate::bands::UNIT;
    use crate::call::{Answer, Call, expected};
    use crate::operation::Operation;
    use crate::quads;
    use crate::random::Random;
    use crate::{inputs, sheets};

    /// The answer for a sheet in the unit box.
    fn asked(sheet: QuadMesh) -> Answer {
        expected(&Call { operation: Operation::Corners, argument: 0, band: UNIT, sheet })
    }

    /// The sum over the points of the quads at them.
    fn quads_at_points(sheet: &QuadMesh) -> u64 {
        let at = |point: usize| sheet.quads.iter().filter(|quad| quad.contains(&point)).count() as u64;
        (0..sheet.points.len()).map(at).sum()
    }

    /// Asserts what an accepted answer says of its sheet.
    fn assert_exact(sheet: &QuadMesh, answer: &Answer) {
        let [quotient, remainder] = answer.words[..] else { panic!("{answer:?}") };
        let points = sheet.points.len() as u64;
        assert_eq!(quads_at_points(sheet), 4 * sheet.quads.len() as u64);
        assert_eq!(quotient * points + remainder, 4 * sheet.quads.len() as u64);
        assert!(remainder < points);
        assert_eq!((answer.flags, answer.count, answer.counts), (0, 0, [0; 3]));
    }

    #[test]
    fn the_cube_its_refined_sheet_and_the_pillow_have_theirs() {
        assert_eq!(asked(sheets::cube()), Answer::ratio([3, 0]));
        assert_eq!(asked(quads::refine(&sheets::cube()).unwrap()), Answer::ratio([3, 18]));
        assert_eq!(asked(sheets::pillow()), Answer::ratio([2, 0]));
        assert_eq!(asked(sheets::pillows()), Answer::ratio([2, 2]));
    }

    #[test]
    fn it_is_refused_as_quality_apart_from_normal() {
        let mut r = Random::new(8);
        let (mut answered, mut normals) = (0, 0);
        for _ in 0..6000 {
            let call = inputs::call(&mut r, Operation::Quality);
            let measured = expected(&call);
            let answer = expected(&Call { operation: Operation::Corners, ..call.clone() });
            match measured.number {
                0 | 11 => assert_exact(&call.sheet, &answer),
                number => assert_eq!(answer, Answer::refused(number)),
            }
            answered += u32::from(measured.number == 0);
            normals += u32::from(measured.number == 11);
        }
        assert!(answered > 2000 && normals > 20, "{answered} answered, {normals} without a normal");
    }
}
