//! The word that may have been meant by one that is not known.

/// The steps and options.
const KNOWN: [&str; 32] = [
    "draw",
    "read",
    "open",
    "refine",
    "subdivide",
    "rows",
    "regularize",
    "improve",
    "coarsen",
    "display",
    "page",
    "quality",
    "corners",
    "sum",
    "check",
    "write",
    "save",
    "picture",
    "example",
    "--plane",
    "--ball",
    "--quadric",
    "--box",
    "--levels",
    "--label",
    "--ascii",
    "--binary",
    "--view",
    "--size",
    "--quiet",
    "--help",
    "--version",
];

/// The known word that is nearest to another, if it is near: one edit away, or two of a word of four letters or more.
pub fn nearest(word: &str) -> Option<&'static str> {
    let most = if word.chars().count() < 4 { 1 } else { 2 };
    let near = KNOWN.into_iter().map(|known| (distance(word, known), known));
    near.filter(|(distance, _)| (1..=most).contains(distance))
        .min_by_key(|(distance, _)| *distance)
        .map(|(_, known)| known)
}

/// The edit distance: how many letters must be put in, taken out or changed to make one word the other.
fn distance(one: &str, other: &str) -> usize {
    let other: Vec<char> = other.chars().collect();
    let mut row: Vec<usize> = (0..=other.len()).collect();
    for letter in one.chars() {
        let mut before = row[0];
        row[0] += 1;
        for (j, &known) in other.iter().enumerate() {
            let changed = before + usize::from(letter != known);
            before = row[j + 1];
            row[j + 1] = changed.min(before + 1).min(row[j] + 1);
        }
    }
    row[other.len()]
}

#[cfg(test)]
mod tests {
    use super::*;
    use crate::help;
    use crate::step;

    #[test]
    fn distances_count_letters() {
        for (one, other, edits) in [
            ("", "", 0),
            ("rows", "rows", 0),
            ("row", "rows", 1),
            ("darw", "draw", 2),
            ("", "page", 4),
            ("ab", "ba", 2),
        ] {
            assert_eq!((distance(one, other), distance(other, one)), (edits, edits), "{one} {other}");
        }
    }

    #[test]
    fn a_near_word_is_found() {
        for (word, meant) in [
            ("row", Some("rows")),
            ("regularise", Some("regularize")),
            ("coarse", Some("coarsen")),
            ("corner", Some("corners")),
            ("--level", Some("--levels")),
            ("-quiet", Some("--quiet")),
            ("help", Some("--help")),
            ("safe", Some("save")),
            ("opne", Some("open")),
            ("sums", Some("sum")),
            ("example", None),
            ("paint", None),
            ("8", None),
        ] {
            assert_eq!(nearest(word), meant, "{word}");
        }
    }

    #[test]
    fn the_known_words_are_those_of_the_help() {
        let lists = help::TEXT.split("\nexamples\n").next().unwrap();
        let words: Vec<&str> = lists.split(|c: char| !c.is_alphanumeric() && c != '-').collect();
        assert!(KNOWN.iter().all(|known| words.contains(known)));
        let entries = lists.lines().filter_map(|line| line.strip_prefix("  ")?.split([' ', ',']).next());
        for word in entries.filter(|word| !word.is_empty()) {
            assert!(KNOWN.contains(&word), "{word}");
        }
    }

    #[test]
    fn the_known_words_are_read() {
        for word in KNOWN.into_iter().filter(|word| !["example", "--help", "--version"].contains(word)) {
            let read = step::parse(&[word.to_string()]).map_err(|problem| problem.to_string());
            assert!(read.is_ok() || read.is_err_and(|told| told.starts_with(&format!("{word} needs "))), "{word}");
        }
    }
}
