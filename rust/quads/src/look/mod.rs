//! Looks at what an operation was handed, after it refused, for what made it refuse. The library's number stands: a
//! look finds causes of that number, or none.
mod arithmetic;
mod band;
mod cells;
mod finer;
mod grid;
mod job;
mod normals;
mod rows;
mod sheet;

use crate::band::Band;
use crate::cause::Cause;
use crate::refusal::Refusal;
use crate::sheet::Sheet;

/// Why drawing refused.
pub(crate) fn drawing(refusal: Refusal, band: &Band, cells: usize) -> Option<Cause> {
    match refusal {
        Refusal::Box => band::fault(band),
        Refusal::Samples => band::number(&band.field).or_else(|| grid::sample(band, cells)),
        Refusal::Bare => grid::missed(band, cells),
        Refusal::Clash => cells::clash(band, cells),
        _ => None,
    }
}

/// Why `refine` refused a sheet: it looks at less of it than the other operations.
pub(crate) fn refining(refusal: Refusal, sheet: &Sheet) -> Option<Cause> {
    match refusal {
        Refusal::Large => Some(Cause::Large(sheet.counts())),
        Refusal::Bare => sheet::labels(sheet),
        Refusal::Corner => sheet::range(sheet),
        _ => None,
    }
}

/// Why saving refused a sheet.
pub(crate) fn saving(refusal: Refusal, sheet: &Sheet) -> Option<Cause> {
    (refusal == Refusal::Large).then(|| Cause::Large(sheet.counts()))
}

/// Why opening refused a file, or reading its sum.
pub(crate) fn opening(refusal: Refusal, file: &[u8]) -> Option<Cause> {
    match refusal {
        Refusal::Trailer => job::trailer(file),
        Refusal::Large => job::large(file),
        Refusal::Sum => job::sum(file),
        _ => None,
    }
}

/// Why an operation that makes or alters a sheet refused the one that it was lent. What a sheet has not itself, the
/// sheet that was to be made has.
pub(crate) fn lent(refusal: Refusal, sheet: &Sheet, band: &Band) -> Option<Cause> {
    match refusal {
        Refusal::Large => Some(Cause::Large(sheet.counts())),
        Refusal::Box => band::fault(band),
        Refusal::Bare => sheet::bare(sheet).or_else(|| finer::smoothed(sheet)),
        Refusal::Corner => sheet::corner(sheet),
        Refusal::Clash => sheet::clash(sheet).or_else(|| rows::borderless(sheet)),
        Refusal::Edge => sheet::edge(sheet),
        Refusal::Astray => finer::astray(sheet, band),
        Refusal::Row => rows::row(sheet, band),
        _ => None,
    }
}

/// Why an operation that measures a sheet refused it. Its lower level may be minus infinity.
pub(crate) fn measuring(refusal: Refusal, sheet: &Sheet, band: &Band) -> Option<Cause> {
    match refusal {
        Refusal::Large => Some(Cause::Large(sheet.counts())),
        Refusal::Box => band::measured_fault(band),
        Refusal::Bare => sheet::bare(sheet),
        Refusal::Corner => sheet::corner(sheet),
        Refusal::Clash => sheet::clash(sheet),
        Refusal::Normal => normals::normal(sheet, band),
        _ => None,
    }
}
