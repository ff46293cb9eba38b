//! What an operation that refuses returns.
use crate::cause::Cause;
use crate::refusal::Refusal;
use std::error::Error;
use std::fmt;

/// A refusal and its cause.
///
/// The number is the library's. The cause is looked for after the call, in what was handed over; it tells people where
/// to look, and nothing is decided by it.
///
/// ```
/// use quads::{Cause, Refusal, Sheet};
///
/// let sheet = Sheet { points: vec![[0.0; 3]], quads: vec![[0, 0, 0, 9]], labels: vec![0] };
/// let refused = sheet.refine().unwrap_err();
/// assert_eq!(refused.refusal(), Refusal::Corner);
/// assert_eq!(refused.cause(), Some(Cause::Range { quad: 0, corner: 3, point: 9, points: 1 }));
/// ```
#[derive(Clone, Copy, Debug, PartialEq)]
pub struct Refused {
    refusal: Refusal,
    cause: Option<Cause>,
}

impl Refused {
    /// A refusal and what a look found. A cause of another refusal is none of this one.
    pub(crate) fn new(refusal: Refusal, cause: Option<Cause>) -> Refused {
        Refused { refusal, cause: cause.filter(|cause| cause.refusal() == refusal) }
    }

    /// Which refusal it is.
    pub fn refusal(&self) -> Refusal {
        self.refusal
    }

    /// What made the operation refuse, and where, if that was found.
    pub fn cause(&self) -> Option<Cause> {
        self.cause
    }

    /// What can be done.
    pub fn advice(&self) -> &'static str {
        self.cause.and_then(|cause| cause.advice()).unwrap_or(self.refusal.advice())
    }
}

/// A refusal whose cause is not known.
impl From<Refusal> for Refused {
    fn from(refusal: Refusal) -> Refused {
        Refused::new(refusal, None)
    }
}

/// Number, word and reason, and the cause behind them.
impl fmt::Display for Refused {
    fn fmt(&self, f: &mut fmt::Formatter<'_>) -> fmt::Result {
        match self.cause {
            Some(cause) => write!(f, "{}: {cause}", self.refusal),
            None => self.refusal.fmt(f),
        }
    }
}

impl Error for Refused {}

#[cfg(test)]
mod tests {
    use super::*;

    #[test]
    fn a_cause_stands_behind_the_reason() {
        let refused = Refused::new(Refusal::Edge, Some(Cause::Edge { points: [3, 7], quads: 1 }));
        let text = "8 edge: an edge does not have exactly two quads: the edge from point 3 to point 7 has 1 quad";
        assert_eq!((refused.to_string().as_str(), refused.advice()), (text, Refusal::Edge.advice()));
    }

    #[test]
    fn without_a_cause_it_is_told_as_the_refusal() {
        let refused = Refused::from(Refusal::Cells);
        assert_eq!((refused.to_string(), refused.cause()), (Refusal::Cells.to_string(), None));
        assert_eq!(refused.advice(), Refusal::Cells.advice());
    }

    #[test]
    fn advice_fits_the_cause() {
        let missed = |levels| Refused::new(Refusal::Bare, Some(Cause::Missed { field: [0.0, 2.0], levels }));
        assert!(missed([3.0, 4.0]).advice().starts_with("give levels that the field takes"));
        assert!(missed([1.0, 1.1]).advice().starts_with("draw with more cells"));
        let number = Cause::Number { name: "a", value: f64::NAN };
        assert_eq!(Refused::new(Refusal::Samples, Some(number)).advice(), "give finite numbers for the field");
    }

    #[test]
    fn a_cause_of_another_refusal_is_none() {
        assert_eq!(Refused::new(Refusal::Edge, Some(Cause::NoPoint)), Refusal::Edge.into());
    }
}
