//! A sheet that goes through several calls, in both: as the original has it, or the model where it is not asked, and in
//! the slices that the library was last lent or wrote.
use crate::flat::Flat;
use crate::library::{self, Lent};
use oracle::call::{Answer, Call};
use oracle::driver::Tallies;
use oracle::field::BandNumbers;
use oracle::operation::Operation;
use oracle::quads::QuadMesh;
use oracle::record;

/// The sheet so far.
pub struct Chain {
    sheet: QuadMesh,
    slices: Flat,
}

impl Chain {
    /// A chain that starts from a sheet.
    pub fn of(sheet: QuadMesh) -> Chain {
        Chain { slices: Flat::with_tails(&sheet), sheet }
    }

    /// The sheet so far, as it is expected.
    pub fn sheet(&self) -> &QuadMesh {
        &self.sheet
    }

    /// Calls an operation in both, each on its own sheet so far, and goes on with what it leaves; the answer, or none
    /// if the two differ.
    pub fn ask(
        &mut self,
        operation: Operation,
        argument: u64,
        band: &BandNumbers,
        tallies: &mut Tallies,
    ) -> Option<Answer> {
        let call = Call { operation, argument, band: *band, sheet: self.sheet.clone() };
        let expected = library::expected(&call);
        let mut lent = Lent::on(self.slices.clone(), &call);
        let number = lent.run(operation);
        let got = number.and_then(|number| lent.answer(operation, number));
        let agree = tallies.count(&call, &expected, got.as_ref());
        self.slices = lent.left(operation, expected.number);
        if let Some(sheet) = record::sheet_in(&expected) {
            self.sheet = sheet;
        }
        agree.then_some(expected)
    }
}
