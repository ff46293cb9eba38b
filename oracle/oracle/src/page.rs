//! The page, which the original does not have: the counts of its own record, by Rust's formatting. What is refused is
//! what its `quality` refuses.
use crate::quads::Quality;

/// The page of a record: a line for each count, its name left in 24 columns, the count right in 16.
pub fn text(quality: &Quality) -> String {
    let counts = [
        ("quads", quality.quads),
        ("irregular", quality.irregular_vertices),
        ("boundary", quality.boundary_edges),
        ("nonmanifold", quality.nonmanifold_edges),
        ("orientation", quality.orientation_errors),
        ("links", quality.bad_vertex_links),
        ("duplicates", quality.duplicate_faces),
        ("invalid", quality.invalid_cells),
    ];
    counts.map(|(name, count)| format!("{name:<24}{count:>16}\n")).concat()
}

#[cfg(test)]
mod tests {
    use crate::bands::UNIT;
    use crate::call::{Answer, Call, expected};
    use crate::operation::Operation;
    use crate::quads::{self, QuadMesh};
    use crate::random::Random;
    use crate::{inputs, sheets};

    /// The bytes of an answer.
    fn bytes(answer: &Answer) -> Vec<u8> {
        answer.words.iter().flat_map(|word| word.to_le_bytes()).collect()
    }

    /// The page of a sheet in the unit box.
    fn page(sheet: QuadMesh) -> String {
        let answer = expected(&Call { operation: Operation::Page, argument: 0, band: UNIT, sheet });
        String::from_utf8(bytes(&answer)).unwrap()
    }

    /// The counts that a page shows, read line by line.
    fn counts(page: &[u8]) -> Vec<u64> {
        let count = |line: &[u8]| std::str::from_utf8(&line[24..40]).unwrap().trim_start().parse().unwrap();
        assert!(page.len() == 328 && page.chunks(41).all(|line| line[40] == 10));
        page.chunks(41).map(count).collect()
    }

    #[test]
    fn the_cube_has_its_page() {
        assert_eq!(
            page(sheets::cube()),
            "quads                                  6\n\
             irregular                              8\n\
             boundary                               0\n\
             nonmanifold                            0\n\
             orientation                            0\n\
             links                                  0\n\
             duplicates                             0\n\
             invalid                                0\n"
        );
    }

    #[test]
    fn other_sheets_have_theirs() {
        let finer = quads::refine(&sheets::cube()).unwrap();
        assert!(page(finer).starts_with("quads                                 24\n"));
        assert!(page(sheets::pillow()).contains("\nduplicates                             1\n"));
        assert!(page(sheets::pillows()).contains("\nlinks                                  1\n"));
        assert!(page(sheets::fan(120)).starts_with("quads                                120\n"));
    }

    #[test]
    fn it_shows_the_counts_of_quality_and_is_refused_as_it_is() {
        let mut r = Random::new(9);
        let (mut shown, mut refused) = (0, 0);
        for _ in 0..6000 {
            let call = inputs::call(&mut r, Operation::Quality);
            let measured = expected(&call);
            let answer = expected(&Call { operation: Operation::Page, ..call });
            if measured.number != 0 {
                assert_eq!(answer, Answer::refused(measured.number));
                refused += 1;
                continue;
            }
            assert_eq!((answer.flags, answer.count, answer.counts), (0, 0, [0; 3]));
            assert_eq!(counts(&bytes(&answer)), measured.words[..8]);
            shown += 1;
        }
        assert!(shown > 2000 && refused > 2000, "{shown} shown, {refused} refused");
    }
}
