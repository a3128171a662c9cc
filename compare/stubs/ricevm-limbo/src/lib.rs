//! Stands in for the crate's own lib.rs: of the compiler only the writer is wanted.
pub mod writer;
