//! The operations and the leaf functions that can be asked.
use std::fmt;

/// An operation or a leaf function, by its number in a record.
#[derive(Clone, Copy, Debug, PartialEq, Eq, PartialOrd, Ord)]
#[repr(u8)]
pub enum Operation {
    /// Makes each quad four.
    Refine = 1,
    /// Refines, smooths and projects.
    Subdivide = 2,
    /// Draws a sheet.
    Extract = 3,
    /// Swaps edges.
    Regularize = 4,
    /// Swaps edges for better shapes too.
    ImproveLayout = 5,
    /// Merges corners.
    Coarsen = 6,
    /// Adds rows along the borders between labels.
    Rows = 7,
    /// Measures a sheet.
    Quality = 8,
    /// Projects a point.
    Project = 9,
    /// The value of a field.
    Value = 10,
    /// The gradient of a band's field.
    Gradient = 11,
    /// The normal of a label.
    Normal = 12,
    /// The square root.
    Sqrt = 13,
    /// Tests a sheet.
    Constraints = 14,
    /// Tests a band.
    Validate = 15,
    /// Divides the corners of the quads by the points.
    Corners = 16,
    /// Writes the counts of a sheet as text.
    Page = 17,
    /// Saves a job.
    Save = 18,
    /// Opens a job.
    Open = 19,
    /// Reads the squared sum of a job file.
    Sum = 20,
}

impl Operation {
    /// Its name.
    pub fn name(self) -> &'static str {
        match self {
            Operation::Refine => "refine",
            Operation::Subdivide => "subdivide",
            Operation::Extract => "extract_candidate",
            Operation::Regularize => "regularize",
            Operation::ImproveLayout => "improve_layout",
            Operation::Coarsen => "coarsen",
            Operation::Rows => "boundary_rows",
            Operation::Quality => "quality",
            Operation::Project => "project",
            Operation::Value => "value",
            Operation::Gradient => "gradient",
            Operation::Normal => "normal",
            Operation::Sqrt => "sqrt",
            Operation::Constraints => "constraints",
            Operation::Validate => "validate",
            Operation::Corners => "corners_per_point",
            Operation::Page => "page",
            Operation::Save => "save",
            Operation::Open => "open",
            Operation::Sum => "sum",
        }
    }

    /// Its number.
    pub fn number(self) -> u8 {
        self as u8
    }

    /// Whether it measures a sheet, which stays as it is.
    pub fn measures(self) -> bool {
        matches!(self, Operation::Quality | Operation::Corners | Operation::Page)
    }

    /// Whether it saves or opens a job, or reads the sum of one.
    pub fn is_of_a_job(self) -> bool {
        matches!(self, Operation::Save | Operation::Open | Operation::Sum)
    }

    /// All of them in the order of their numbers.
    pub fn all() -> impl Iterator<Item = Operation> {
        (1..).map_while(|number| Operation::try_from(number).ok())
    }
}

impl TryFrom<u8> for Operation {
    type Error = UnknownOperation;

    /// The operation of a number.
    fn try_from(number: u8) -> Result<Operation, UnknownOperation> {
        match number {
            1 => Ok(Operation::Refine),
            2 => Ok(Operation::Subdivide),
            3 => Ok(Operation::Extract),
            4 => Ok(Operation::Regularize),
            5 => Ok(Operation::ImproveLayout),
            6 => Ok(Operation::Coarsen),
            7 => Ok(Operation::Rows),
            8 => Ok(Operation::Quality),
            9 => Ok(Operation::Project),
            10 => Ok(Operation::Value),
            11 => Ok(Operation::Gradient),
            12 => Ok(Operation::Normal),
            13 => Ok(Operation::Sqrt),
            14 => Ok(Operation::Constraints),
            15 => Ok(Operation::Validate),
            16 => Ok(Operation::Corners),
            17 => Ok(Operation::Page),
            18 => Ok(Operation::Save),
            19 => Ok(Operation::Open),
            20 => Ok(Operation::Sum),
            _ => Err(UnknownOperation(number)),
        }
    }
}

/// A number that no operation has.
#[derive(Clone, Copy, Debug, PartialEq, Eq)]
pub struct UnknownOperation(pub u8);

impl fmt::Display for UnknownOperation {
    fn fmt(&self, f: &mut fmt::Formatter<'_>) -> fmt::Result {
        write!(f, "{} is the number of no operation", self.0)
    }
}

impl std::error::Error for UnknownOperation {}

#[cfg(test)]
mod tests {
    use super::*;

    #[test]
    fn numbers_and_names_are_those_of_the_record_format() {
        let names = [
            "refine",
            "subdivide",
            "extract_candidate",
            "regularize",
            "improve_layout",
            "coarsen",
            "boundary_rows",
            "quality",
            "project",
            "value",
            "gradient",
            "normal",
            "sqrt",
            "constraints",
            "validate",
            "corners_per_point",
            "page",
            "save",
            "open",
            "sum",
        ];
        assert_eq!(Operation::all().map(Operation::name).collect::<Vec<_>>(), names);
        assert!(Operation::all().map(Operation::number).eq(1..=20));
    }

    #[test]
    fn another_number_is_none() {
        for number in [0, 21, u8::MAX] {
            assert_eq!(Operation::try_from(number), Err(UnknownOperation(number)));
        }
        assert_eq!(UnknownOperation(21).to_string(), "21 is the number of no operation");
    }
}
