//! Stands in for the registry crate of this name, so that the original builds offline.
pub use serde_derive::{Deserialize, Serialize};
