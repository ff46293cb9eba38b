//! The names in a text of the logic or of the code.

/// Characters that stand between names.
fn is_between(character: char) -> bool {
    character.is_whitespace() || "(){}[];,:".contains(character)
}

/// A text without its comments, which begin with `mark`.
pub fn without_comments(text: &str, mark: &str) -> String {
    let inner = format!(" {mark}");
    let code = |line: &str| match line.trim_start().starts_with(mark) {
        true => String::new(),
        false => line.split(&inner).next().unwrap_or_default().to_string(),
    };
    text.lines().map(code).collect::<Vec<_>>().join("\n")
}

/// The names that a text uses, each with the fields that follow on it. What follows on the point behind a bracket is a
/// field and no name; what stands left of `=` is a variable or a field.
pub fn names(text: &str) -> Vec<&str> {
    let words: Vec<&str> = text.split(is_between).filter(|word| !word.is_empty()).collect();
    let defined = |i: usize| words.get(i + 1) == Some(&"=");
    let used = words.iter().enumerate().filter(|&(i, word)| *word != "=" && !word.starts_with('.') && !defined(i));
    used.map(|(_, word)| word.trim_end_matches('.').trim_matches(['«', '»'])).collect()
}

#[cfg(test)]
mod tests {
    use super::*;

    #[test]
    fn fields_and_what_is_set_are_no_names() {
        assert_eq!(
            names("f (g x).left = record { count = g x; sheet = made.Done }"),
            ["f", "g", "x", "record", "g", "x", "made.Done"]
        );
        assert_eq!(names("(λ r. r ≡ «data» new_points.new)"), ["λ", "r", "r", "≡", "data", "new_points.new"]);
    }

    #[test]
    fn comments_are_left_out() {
        assert_eq!(without_comments("-- a\nb -- c\nd", "--"), "\nb\nd");
    }
}
