//! Numbers, lists and lines of a printed page.

/// The widest line of a page.
pub const WIDTH: usize = 120;

/// A number with its thousands apart.
pub fn number(n: usize) -> String {
    match n {
        0..1000 => n.to_string(),
        _ => format!("{},{:03}", number(n / 1000), n % 1000),
    }
}

/// A number of things.
pub fn counted(n: usize, thing: &str) -> String {
    format!("{} {thing}{}", number(n), if n == 1 { "" } else { "s" })
}

/// The first sentence of a text.
pub fn sentence(text: &str) -> &str {
    text.find(". ").map_or(text, |at| &text[..at + 1])
}

/// Things with commas between.
pub fn listed(things: &[String]) -> Vec<String> {
    let last = things.len().saturating_sub(1);
    things.iter().enumerate().map(|(i, thing)| format!("{thing}{}", if i == last { "" } else { "," })).collect()
}

/// Words with blanks between, in lines that are not too wide: the first begins with `first`, the others with `rest`.
pub fn wrapped<Word: AsRef<str>>(first: &str, rest: &str, words: &[Word]) -> String {
    let mut text = String::new();
    let mut line = first.to_string();
    for word in words.iter().map(AsRef::as_ref) {
        if line.chars().count() + word.chars().count() > WIDTH {
            text += &format!("{}\n", line.trim_end());
            line = rest.to_string();
        }
        line += &format!("{word} ");
    }
    format!("{text}{}\n", line.trim_end())
}

#[cfg(test)]
mod tests {
    use super::*;

    #[test]
    fn numbers_and_sentences_read_well() {
        assert_eq!((number(999), number(1006)), ("999".to_string(), "1,006".to_string()));
        assert_eq!((counted(1, "line"), counted(2, "line")), ("1 line".to_string(), "2 lines".to_string()));
        assert_eq!((sentence("Quads. Document 01."), sentence("Quads")), ("Quads.", "Quads"));
    }

    #[test]
    fn lines_are_as_wide_as_may_be() {
        let words = ["a".repeat(60), "b".repeat(57), "c".to_string()];
        assert_eq!(wrapped("- ", "  ", &words), format!("- {} {}\n  c\n", words[0], words[1]));
    }
}
