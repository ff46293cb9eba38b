//! The number of document 01 for each text with which the original refuses.
use crate::MeshingError;

/// The number of a text that the table does not hold.
pub const UNLISTED: u8 = 255;

/// Every text with which the original refuses in what is ported, and its number; the port itself never answers 2.
pub const TEXTS: [(&str, u8); 17] = [
    ("Ordered levels with a finite upper bound and finite box bounds are required", 1),
    ("Box extent must have a finite positive length", 1),
    ("Dual quad extraction requires two finite band levels", 2),
    ("Extraction cells must be in 4..=128", 3),
    ("Non-finite field samples", 4),
    ("Expected nonempty finite points and one label per quad", 5),
    ("Missing quad labels", 5),
    ("Invalid quad indices or surface label", 6),
    ("Invalid quad index", 6),
    ("Unresolved or incompatible surface constraints; increase extraction resolution", 7),
    ("Smooth refinement requires closed manifold edges", 8),
    ("Boundary rows require closed manifold edge incidence", 8),
    ("Singular/non-finite field during projection", 9),
    ("Surface projection did not converge", 9),
    ("Projection left the clipping box", 9),
    ("Cannot initialize a boundary row inside the geometry", 10),
    ("Invalid surface normal during quality evaluation", 11),
];

/// The number of a refusal.
pub fn number(error: &MeshingError) -> u8 {
    let (MeshingError::InvalidOptions(text) | MeshingError::GenerationFailed(text)) = error;
    TEXTS.iter().find(|(known, _)| known == text).map_or(UNLISTED, |&(_, number)| number)
}

#[cfg(test)]
mod tests {
    use super::*;

    #[test]
    fn every_text_stands_in_the_original() {
        let source = std::fs::read_to_string(env!("QUADS_FILE")).unwrap();
        for (text, _) in TEXTS {
            assert!(source.contains(&format!("\"{text}\"")), "{text}");
        }
    }

    #[test]
    fn every_text_has_its_number() {
        for (text, expected) in TEXTS {
            assert_eq!(number(&MeshingError::InvalidOptions(text.into())), expected);
            assert_eq!(number(&MeshingError::GenerationFailed(text.into())), expected);
        }
        assert_eq!(number(&MeshingError::InvalidOptions("another".into())), UNLISTED);
    }

    #[test]
    fn the_numbers_are_1_to_11() {
        let numbers: std::collections::BTreeSet<u8> = TEXTS.iter().map(|&(_, n)| n).collect();
        assert!(numbers.into_iter().eq(1..=11));
    }
}
