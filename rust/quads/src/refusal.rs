//! The refusals.
use std::error::Error;
use std::fmt;

/// Why an operation refused: the numbers of the library, with their words.
#[derive(Clone, Copy, Debug, PartialEq, Eq, Hash)]
#[non_exhaustive]
#[repr(u32)]
pub enum Refusal {
    /// The levels, the bounds or the length of the box. Where a sheet is measured, the lower level may be minus
    /// infinity; else both levels are finite.
    Box = 1,
    /// No longer returned: a lower level that is not finite is [`Refusal::Box`]. It was that of drawing with one.
    Bottomless = 2,
    /// Drawing with other than 4 to 128 cells.
    Cells = 3,
    /// A sample of the grid is not finite.
    Samples = 4,
    /// No point or quad, other than one label a quad, or a point that is not finite.
    Bare = 5,
    /// A label above 7, or a quad with a corner out of range or twice.
    Corner = 6,
    /// A point without a quad, or on two opposite faces or both levels.
    Clash = 7,
    /// An edge without exactly two quads.
    Edge = 8,
    /// A point that cannot be projected.
    Astray = 9,
    /// A row that finds no place.
    Row = 10,
    /// A normal that is not finite or too short.
    Normal = 11,
    /// A sheet above the limit.
    Large = 12,
    /// A slice that holds too little, or a result above the limit.
    Short = 13,
    /// A job file that is too short, or whose trailer is not that of its parts.
    Trailer = 14,
    /// A job file whose trailer says another squared sum than its sheet has.
    Sum = 17,
}

/// All refusals in the order of their numbers, which need not follow on one another.
const ALL: [Refusal; 15] = [
    Refusal::Box,
    Refusal::Bottomless,
    Refusal::Cells,
    Refusal::Samples,
    Refusal::Bare,
    Refusal::Corner,
    Refusal::Clash,
    Refusal::Edge,
    Refusal::Astray,
    Refusal::Row,
    Refusal::Normal,
    Refusal::Large,
    Refusal::Short,
    Refusal::Trailer,
    Refusal::Sum,
];

impl Refusal {
    /// Its number.
    pub fn number(self) -> u32 {
        self as u32
    }

    /// Its word.
    pub fn word(self) -> &'static str {
        match self {
            Refusal::Box => "box",
            Refusal::Bottomless => "bottomless",
            Refusal::Cells => "cells",
            Refusal::Samples => "samples",
            Refusal::Bare => "bare",
            Refusal::Corner => "corner",
            Refusal::Clash => "clash",
            Refusal::Edge => "edge",
            Refusal::Astray => "astray",
            Refusal::Row => "row",
            Refusal::Normal => "normal",
            Refusal::Large => "large",
            Refusal::Short => "short",
            Refusal::Trailer => "trailer",
            Refusal::Sum => "sum",
        }
    }

    /// What was found.
    pub fn reason(self) -> &'static str {
        match self {
            Refusal::Box => {
                "the levels are not finite or not in order, the box has no finite size, or the field is of no kind"
            }
            Refusal::Bottomless => "the lower level is not finite",
            Refusal::Cells => "the number of cells is not from 4 to 128",
            Refusal::Samples => "the field is not finite at a place of the grid",
            Refusal::Bare => "the sheet has no point or no quad, not one label a quad, or a point that is not finite",
            Refusal::Corner => "a label is above 7, or a quad names a point that is not there or names one twice",
            Refusal::Clash => "a point has no quad, or lies on both levels or on two opposite box faces",
            Refusal::Edge => "an edge does not have exactly two quads",
            Refusal::Astray => "a smoothed point cannot be brought back onto the band",
            Refusal::Row => "a row finds no place inside its patch",
            Refusal::Normal => "the field has no direction at the centre of a quad",
            Refusal::Large => "the sheet has more than 1,048,576 points, quads or labels",
            Refusal::Short => {
                "the result would have more than 1,048,576 points or quads, or a lent slice is too short for it"
            }
            Refusal::Trailer => "the file is too short for a job file, or its trailer does not fit it",
            Refusal::Sum => "the squared sum in the trailer of the job file is not that of its sheet",
        }
    }

    /// What can be done.
    pub fn advice(self) -> &'static str {
        match self {
            Refusal::Box => {
                "give finite levels, the lower below the upper, and a box whose low corner is below its high corner"
            }
            Refusal::Bottomless => "give a finite lower level",
            Refusal::Cells => "draw with 4 to 128 cells",
            Refusal::Samples => "use smaller numbers in the field, the levels and the box",
            Refusal::Bare => "draw with more cells, or mend the sheet where it was made",
            Refusal::Corner => "mend the sheet where it was made",
            Refusal::Clash => "draw with more cells, so that the band is wider than a cell",
            Refusal::Edge => "draw with other cells or another box; the step `quality` counts such edges",
            Refusal::Astray => "draw with more cells, or clean the sheet up first",
            Refusal::Row => "draw with more cells, or refine first",
            Refusal::Normal => "move the levels away from where the field is flat",
            Refusal::Large => "use a smaller sheet: draw with fewer cells, or refine less often",
            Refusal::Short => "draw with fewer cells, or refine less often",
            Refusal::Trailer => "give a job file as it was saved, whole and unaltered",
            Refusal::Sum => "give the job file as it was saved: its quads or its trailer were altered since",
        }
    }

    /// All refusals in the order of their numbers.
    pub fn all() -> impl Iterator<Item = Refusal> {
        ALL.into_iter()
    }
}

impl TryFrom<u32> for Refusal {
    type Error = UnknownRefusal;

    /// The refusal of a number.
    ///
    /// # Errors
    ///
    /// A number that no refusal has.
    fn try_from(number: u32) -> Result<Refusal, UnknownRefusal> {
        ALL.into_iter().find(|refusal| refusal.number() == number).ok_or(UnknownRefusal(number))
    }
}

/// Number, word and reason.
impl fmt::Display for Refusal {
    fn fmt(&self, f: &mut fmt::Formatter<'_>) -> fmt::Result {
        write!(f, "{} {}: {}", self.number(), self.word(), self.reason())
    }
}

impl Error for Refusal {}

/// A number that no refusal has.
#[derive(Clone, Copy, Debug, PartialEq, Eq)]
pub struct UnknownRefusal(pub u32);

impl fmt::Display for UnknownRefusal {
    fn fmt(&self, f: &mut fmt::Formatter<'_>) -> fmt::Result {
        write!(f, "{} is the number of no refusal", self.0)
    }
}

impl Error for UnknownRefusal {}

/// What a number of the library says: nothing for 0, else the refusal.
pub(crate) fn accepted(number: u32) -> Result<(), Refusal> {
    if number == 0 {
        return Ok(());
    }
    Err(Refusal::try_from(number).expect("the library's contracts rule this number out"))
}

#[cfg(test)]
mod tests {
    use super::*;

    #[test]
    fn numbers_and_words_are_those_of_the_library() {
        let words = [
            "box",
            "bottomless",
            "cells",
            "samples",
            "bare",
            "corner",
            "clash",
            "edge",
            "astray",
            "row",
            "normal",
            "large",
            "short",
            "trailer",
            "sum",
        ];
        assert_eq!(Refusal::all().map(Refusal::word).collect::<Vec<_>>(), words);
        assert!(Refusal::all().map(Refusal::number).eq((1..=14).chain([17])));
    }

    #[test]
    fn a_number_is_its_refusal() {
        assert_eq!(accepted(0), Ok(()));
        assert_eq!(accepted(7), Err(Refusal::Clash));
        assert_eq!([14, 17].map(accepted), [Err(Refusal::Trailer), Err(Refusal::Sum)]);
        for refusal in Refusal::all() {
            assert_eq!(Refusal::try_from(refusal.number()), Ok(refusal));
        }
    }

    #[test]
    fn a_number_that_is_no_longer_returned_is_still_told() {
        assert_eq!(accepted(2), Err(Refusal::Bottomless));
        assert_eq!(Refusal::Bottomless.to_string(), "2 bottomless: the lower level is not finite");
        assert_eq!(Refusal::Bottomless.advice(), "give a finite lower level");
    }

    #[test]
    fn another_number_is_none() {
        for number in [0, 15, 16, 18, u32::MAX] {
            assert_eq!(Refusal::try_from(number), Err(UnknownRefusal(number)));
        }
        assert_eq!(UnknownRefusal(15).to_string(), "15 is the number of no refusal");
    }

    #[test]
    fn a_refusal_is_told_with_number_and_word() {
        let text = Refusal::Cells.to_string();
        assert_eq!(text, "3 cells: the number of cells is not from 4 to 128");
    }
}
