//! The operations of the static library `quads`, as Rust calls them.
pub mod bottomless;
pub mod chain;
pub mod closed;
pub mod crowded;
pub mod draws;
pub mod faults;
pub mod flat;
pub mod job_faults;
pub mod jobs;
pub mod library;
pub mod lists;
