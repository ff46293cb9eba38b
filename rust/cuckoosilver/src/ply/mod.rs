//! Sheets in PLY files: ASCII or binary, the labels as a property and as colours. Binary files are written with the
//! low byte first, and read in either order.
mod header;
mod read;
mod values;
mod write;

pub use read::read;
pub use write::write;
