//! The root of the crate that holds toydb's files: only the modules that document 01 names.

pub mod encoding;
pub mod error;
pub mod storage;
