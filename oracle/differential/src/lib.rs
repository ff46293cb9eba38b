//! The proved library, asked as the original is.
pub mod library;
