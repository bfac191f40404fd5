//! Stands in for toydb's storage/mod.rs, which is not to be had: its files use `super::{Engine, Status}`.

pub mod bitcask;
pub mod engine;
pub mod mvcc;

pub use engine::{Engine, ScanIterator, Status};
