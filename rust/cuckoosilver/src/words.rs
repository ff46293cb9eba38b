//! The words of a command line, one after the other.
use crate::problem::Problem;
use std::num::{IntErrorKind, ParseIntError};

/// What is left of the words.
pub struct Words<'a> {
    left: &'a [String],
}

impl<'a> Words<'a> {
    /// All words.
    pub fn new(words: &'a [String]) -> Words<'a> {
        Words { left: words }
    }

    /// How many words are left.
    pub fn left(&self) -> usize {
        self.left.len()
    }

    /// The next word, if there is one.
    pub fn next(&mut self) -> Option<&'a str> {
        let (first, rest) = self.left.split_first()?;
        self.left = rest;
        Some(first)
    }

    /// The next word, which `of` needs.
    pub fn operand(&mut self, of: &str, what: &str) -> Result<&'a str, Problem> {
        self.next().ok_or_else(|| Problem::Usage(format!("{of} needs {what}")))
    }

    /// The next word as a file or `-`, which `of` needs; another word that begins with a dash is an option.
    pub fn file(&mut self, of: &str, what: &str) -> Result<&'a str, Problem> {
        let word = self.operand(of, what)?;
        if word != "-" && word.starts_with('-') {
            return Err(Problem::Usage(format!("{of} needs {what}, not {word}")));
        }
        Ok(word)
    }

    /// The next N words as numbers, which `of` needs.
    pub fn floats<const N: usize>(&mut self, of: &str) -> Result<[f64; N], Problem> {
        let mut numbers = [0.0; N];
        for number in &mut numbers {
            let word = self.operand(of, &format!("{N} numbers"))?;
            *number =
                word.parse().map_err(|_| Problem::Usage(format!("{of} needs {N} numbers; {word} is not a number")))?;
        }
        Ok(numbers)
    }

    /// The next word as a count, which `of` needs.
    pub fn count(&mut self, of: &str, what: &str) -> Result<usize, Problem> {
        whole(self.operand(of, what)?).map_err(|wrong| Problem::Usage(format!("{of} needs {what}; {wrong}")))
    }

    /// The next word if it is a count, else the default.
    pub fn count_or(&mut self, of: &str, default: usize) -> Result<usize, Problem> {
        if !self.left.first().is_some_and(|word| word.starts_with(|c: char| c == '+' || c.is_ascii_digit())) {
            return Ok(default);
        }
        self.count(of, "PASSES")
    }
}

/// A word as a whole number, or what is wrong with it.
fn whole(word: &str) -> Result<usize, String> {
    word.parse().map_err(|error: ParseIntError| match error.kind() {
        IntErrorKind::PosOverflow => format!("{word} is too large, the largest is {}", usize::MAX),
        _ => format!("{word} is not a whole number"),
    })
}

#[cfg(test)]
mod tests {
    use super::*;

    fn list(text: &str) -> Vec<String> {
        text.split_whitespace().map(String::from).collect()
    }

    #[test]
    fn numbers_are_taken_in_order() {
        let words = list("1 -2.5e3 -inf 7 x");
        let mut words = Words::new(&words);
        assert_eq!(words.floats::<3>("--plane"), Ok([1.0, -2500.0, f64::NEG_INFINITY]));
        assert_eq!(words.count("draw", "CELLS"), Ok(7));
        assert_eq!(words.count_or("coarsen", 1), Ok(1));
        assert_eq!(words.next(), Some("x"));
        assert_eq!(words.next(), None);
    }

    #[test]
    fn an_option_is_no_file() {
        let words = list("a.ply - --quiet");
        let mut words = Words::new(&words);
        assert_eq!((words.file("read", "FILE"), words.file("read", "FILE")), (Ok("a.ply"), Ok("-")));
        assert_eq!(words.file("read", "FILE"), Err(Problem::Usage("read needs FILE, not --quiet".into())));
    }

    #[test]
    fn what_is_missing_or_no_number_is_told() {
        let words = list("1 two");
        let usage = |text: &str| Problem::Usage(text.into());
        assert_eq!(
            Words::new(&words).floats::<2>("--levels"),
            Err(usage("--levels needs 2 numbers; two is not a number"))
        );
        assert_eq!(Words::new(&words[..1]).floats::<2>("--levels"), Err(usage("--levels needs 2 numbers")));
        assert_eq!(
            Words::new(&words[1..]).count("draw", "CELLS"),
            Err(usage("draw needs CELLS; two is not a whole number"))
        );
    }
}
