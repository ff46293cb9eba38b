//! The Rust original as the judge of the port: what it answers, inputs to ask it, and the record format of both. What
//! it does not have, or is not asked, has a model.
include!(concat!(env!("OUT_DIR"), "/original.rs"));
pub use error::MeshingError;

pub mod arguments;
pub mod bands;
pub mod call;
pub mod corners;
pub mod crowds;
pub mod drawn;
pub mod driver;
pub mod field;
pub mod files;
pub mod floats;
pub mod inner;
pub mod inputs;
pub mod job;
pub mod levels;
pub mod operation;
pub mod page;
pub mod patches;
pub mod random;
pub mod record;
pub mod refusal;
pub mod rings;
pub mod sample;
pub mod sheets;
pub mod summed;
pub mod swaps;
