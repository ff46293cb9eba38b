//! Labelled quad sheets around a band of a scalar field: drawn, refined, cleaned up, measured and saved.
//!
//! This is safe Rust over the static library `quads`, whose functions are proved to meet their contracts. The names
//! are those of the library's operations. An operation that refuses returns [`Refused`], which says by its [`Refusal`]
//! why and by its [`Cause`] where; a sheet that it was to alter is then as it came.
//!
//! ```
//! use quads::{Band, Field, Job, Sheet};
//!
//! let band = Band {
//!     field: Field::Ball { cx: 0.0, cy: 0.0, cz: 0.0, r: 0.0 },
//!     low: [-1.0; 3],
//!     high: [1.0; 3],
//!     lower: 0.25,
//!     upper: 0.64,
//! };
//! let mut sheet = Sheet::extract_candidate(&band, 16)?;
//! let merges = sheet.coarsen(&band, 4)?;
//! let swaps = sheet.regularize(&band, 4)?;
//! let quality = sheet.quality(&band)?;
//! println!("{merges} merges, {swaps} swaps, {} quads, tight: {}", quality.quads, quality.tight);
//! let corners = sheet.corners_per_point(&band)?;
//! println!("{} corners per point, remainder {}", corners.quotient, corners.remainder);
//! print!("{}", String::from_utf8_lossy(&sheet.page(&band)?));
//! let file = Job::new(&band, sheet).save()?;
//! println!("{} quads in {} bytes", Job::open(&file)?.sheet.quads.len(), file.len());
//! println!("squared sum {:?}", Job::sum(&file)?);
//! # Ok::<(), quads::Refused>(())
//! ```
//!
//! Who calls many operations keeps their work in a [`Workspace`], which has the same operations, [`Job::save`] and
//! [`Job::open`] among them.
#![warn(clippy::missing_errors_doc)]

mod band;
mod cause;
pub mod ffi;
mod job;
mod label;
mod look;
mod operations;
mod quality;
mod ratio;
mod refusal;
mod refused;
mod sheet;
pub mod sizes;
mod workspace;

pub use band::{Band, Field};
pub use cause::{Cause, Miss, Origin, Section, TrailerFault};
pub use job::Job;
pub use label::{Label, UnknownLabel};
pub use quality::Quality;
pub use ratio::Ratio;
pub use refusal::{Refusal, UnknownRefusal};
pub use refused::Refused;
pub use sheet::{Counts, Sheet};
pub use sizes::{LIMIT, PAGE};
pub use workspace::Workspace;
