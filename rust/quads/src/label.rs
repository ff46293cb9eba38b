//! The labels.
use std::error::Error;
use std::fmt;

/// What a quad lies on: a level of the band, or a face of its box.
#[derive(Clone, Copy, Debug, PartialEq, Eq, PartialOrd, Ord, Hash)]
#[repr(u8)]
pub enum Label {
    /// The upper level.
    Upper = 0,
    /// The lower level.
    Lower = 1,
    /// The low face in x.
    LowX = 2,
    /// The high face in x.
    HighX = 3,
    /// The low face in y.
    LowY = 4,
    /// The high face in y.
    HighY = 5,
    /// The low face in z.
    LowZ = 6,
    /// The high face in z.
    HighZ = 7,
}

impl Label {
    /// All labels in the order of their numbers.
    pub const ALL: [Label; 8] =
        [Label::Upper, Label::Lower, Label::LowX, Label::HighX, Label::LowY, Label::HighY, Label::LowZ, Label::HighZ];

    /// Its number.
    pub fn number(self) -> u8 {
        self as u8
    }

    /// Its words.
    pub fn words(self) -> &'static str {
        match self {
            Label::Upper => "upper level",
            Label::Lower => "lower level",
            Label::LowX => "low x face",
            Label::HighX => "high x face",
            Label::LowY => "low y face",
            Label::HighY => "high y face",
            Label::LowZ => "low z face",
            Label::HighZ => "high z face",
        }
    }

    /// The other level, or the face across the box.
    pub fn opposite(self) -> Label {
        Label::ALL[usize::from(self.number() ^ 1)]
    }

    /// Whether it is a level.
    pub fn is_level(self) -> bool {
        matches!(self, Label::Upper | Label::Lower)
    }
}

impl From<Label> for u8 {
    fn from(label: Label) -> u8 {
        label.number()
    }
}

impl TryFrom<u8> for Label {
    type Error = UnknownLabel;

    /// The label of a number.
    ///
    /// # Errors
    ///
    /// A number above 7.
    fn try_from(number: u8) -> Result<Label, UnknownLabel> {
        Label::ALL.get(usize::from(number)).copied().ok_or(UnknownLabel(number))
    }
}

/// Its words.
impl fmt::Display for Label {
    fn fmt(&self, f: &mut fmt::Formatter<'_>) -> fmt::Result {
        f.write_str(self.words())
    }
}

/// A number that no label has.
#[derive(Clone, Copy, Debug, PartialEq, Eq)]
pub struct UnknownLabel(pub u8);

impl fmt::Display for UnknownLabel {
    fn fmt(&self, f: &mut fmt::Formatter<'_>) -> fmt::Result {
        write!(f, "{} is the number of no label", self.0)
    }
}

impl Error for UnknownLabel {}

#[cfg(test)]
mod tests {
    use super::*;

    #[test]
    fn a_label_has_its_number_and_its_words() {
        for (number, label) in (0..8).zip(Label::ALL) {
            assert_eq!((label.number(), Label::try_from(number)), (number, Ok(label)));
        }
        let words: Vec<String> = Label::ALL.iter().map(Label::to_string).collect();
        let faces = ["low x face", "high x face", "low y face", "high y face", "low z face", "high z face"];
        assert_eq!(words[..2], ["upper level", "lower level"]);
        assert_eq!(words[2..], faces);
    }

    #[test]
    fn another_number_is_none() {
        for number in [8, 255] {
            assert_eq!(Label::try_from(number), Err(UnknownLabel(number)));
        }
        assert_eq!(UnknownLabel(8).to_string(), "8 is the number of no label");
    }

    #[test]
    fn levels_and_faces_have_their_opposites() {
        assert_eq!((Label::Upper.opposite(), Label::HighY.opposite()), (Label::Lower, Label::LowY));
        assert!(Label::Lower.is_level() && !Label::LowX.is_level());
    }
}
