//! Words and numbers from the command line.

/// The word at a place, if there is one.
pub fn word(place: usize) -> Option<String> {
    std::env::args().nth(place)
}

/// The number at a place, or a default where there is none.
pub fn number(place: usize, default: u64) -> Result<u64, String> {
    match word(place) {
        Some(word) => word.parse().map_err(|_| format!("{word} is not a number")),
        None => Ok(default),
    }
}
