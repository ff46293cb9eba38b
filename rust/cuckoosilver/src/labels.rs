//! The colours of the labels: eight that people with any colour vision tell apart.

/// Red, green and blue.
pub type Colour = [u8; 3];

/// The colours of the labels 0 to 7.
const COLOURS: [Colour; 8] = [
    [86, 180, 233],
    [230, 159, 0],
    [0, 158, 115],
    [240, 228, 66],
    [0, 114, 178],
    [213, 94, 0],
    [204, 121, 167],
    [153, 153, 153],
];

/// The colour of a label; black for one that is none.
pub fn colour(label: u8) -> Colour {
    COLOURS.get(usize::from(label)).copied().unwrap_or_default()
}

/// The label of a colour, if it has one.
pub fn label(colour: Colour) -> Option<u8> {
    COLOURS.iter().position(|&known| known == colour).map(|label| label as u8)
}

#[cfg(test)]
mod tests {
    use super::*;

    #[test]
    fn each_label_has_its_own_colour() {
        for n in 0..8 {
            assert_eq!(label(colour(n)), Some(n));
        }
        assert_eq!((colour(8), label([1, 2, 3])), ([0; 3], None));
    }
}
