//! Stands in for the crate's own lib.rs, which isn't among the sources: its four modules, and the error that the loader makes.
mod instruction;
mod module;
mod opcode;
mod types;

pub use instruction::*;
pub use module::*;
pub use opcode::*;
pub use types::*;

/// The cases and what they hold are those that the loader writes down.
#[derive(Debug, Clone, PartialEq, Eq)]
pub enum LoadError {
    UnexpectedEof { section: &'static str },
    InvalidMagic(i32),
    InvalidOpcode(u8),
    InvalidAddressMode(u8),
    InvalidDataType(u8),
    ValidationError(String),
    Other(String),
}
