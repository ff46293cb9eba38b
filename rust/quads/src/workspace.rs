//! The work of the calls, kept between them.
use crate::ffi::WorkMut;
use crate::sizes::WorkSize;
use std::fmt;

/// The work that the operations need, kept from one call to the next: who calls often saves the time in which the
/// system hands it out anew. It grows to what the largest call needed and stays so; the methods of a sheet take a new
/// one each time.
///
/// ```
/// use quads::{Band, Field, Workspace};
///
/// let field = Field::Ball { cx: 0.0, cy: 0.0, cz: 0.0, r: 0.0 };
/// let band = Band { field, low: [-1.0; 3], high: [1.0; 3], lower: 0.25, upper: 0.64 };
/// let mut workspace = Workspace::new();
/// let mut sheet = workspace.extract_candidate(&band, 16)?;
/// workspace.coarsen(&mut sheet, &band, 4)?;
/// let finer = workspace.subdivide(&sheet, &band)?;
/// # assert!(finer.quads.len() == 4 * sheet.quads.len());
/// # Ok::<(), quads::Refused>(())
/// ```
#[derive(Default)]
pub struct Workspace {
    wholes: Vec<u32>,
    floats: Vec<f64>,
}

impl Workspace {
    /// One that holds nothing yet.
    pub fn new() -> Workspace {
        Workspace::default()
    }

    /// The work of a call: what it asks for and no more, since the library clears all that it is lent.
    pub(crate) fn lend(&mut self, size: WorkSize) -> WorkMut<'_> {
        grow(&mut self.wholes, size.wholes);
        grow(&mut self.floats, size.floats);
        WorkMut { wholes: &mut self.wholes[..size.wholes], floats: &mut self.floats[..size.floats] }
    }
}

/// Makes a list at least so long. What it held is not kept: between calls all of it is zero.
fn grow<T: Clone + Default>(list: &mut Vec<T>, length: usize) {
    if list.len() < length {
        *list = vec![];
        *list = vec![T::default(); length];
    }
}

/// How much it holds.
impl fmt::Debug for Workspace {
    fn fmt(&self, f: &mut fmt::Formatter<'_>) -> fmt::Result {
        let (wholes, floats) = (self.wholes.len(), self.floats.len());
        f.debug_struct("Workspace").field("wholes", &wholes).field("floats", &floats).finish()
    }
}

#[cfg(test)]
mod tests {
    use super::*;

    /// What is lent, and what is held after it.
    fn lent(workspace: &mut Workspace, wholes: usize, floats: usize) -> ([usize; 2], [usize; 2]) {
        let work = workspace.lend(WorkSize { wholes, floats });
        let lengths = [work.wholes.len(), work.floats.len()];
        (lengths, [workspace.wholes.len(), workspace.floats.len()])
    }

    #[test]
    fn it_lends_what_is_asked_for_and_keeps_the_most() {
        let mut workspace = Workspace::new();
        assert_eq!(lent(&mut workspace, 5, 2), ([5, 2], [5, 2]));
        assert_eq!(lent(&mut workspace, 3, 7), ([3, 7], [5, 7]));
        assert_eq!(lent(&mut workspace, 0, 0), ([0, 0], [5, 7]));
        assert_eq!(format!("{workspace:?}"), "Workspace { wholes: 5, floats: 7 }");
    }

    #[test]
    fn a_shorter_call_has_the_same_place() {
        let mut workspace = Workspace::new();
        let place = workspace.lend(WorkSize { wholes: 9, floats: 9 }).wholes.as_ptr();
        assert_eq!(workspace.lend(WorkSize { wholes: 4, floats: 4 }).wholes.as_ptr(), place);
    }
}
