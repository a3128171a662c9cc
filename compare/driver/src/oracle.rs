//! The Rust, unchanged: what it answers, and which of document 01's refusals its error tells.
use ricevm_core::{LoadError, Module};
use ricevm_limbo::writer::{write_dis, WriteError};

/// A refusal, as far as the Rust's error tells it: the place of a byte in the file is never told.
#[derive(Debug, Clone, Copy, PartialEq, Eq)]
pub struct Told {
    pub number: i64,
    pub section: i64,
    pub place: Option<i64>,
    pub detail: Option<i64>,
}

pub fn load(file: &[u8]) -> Result<Module, Told> {
    ricevm_loader::load(file).map_err(|why| told(&why))
}

/// The bytes, or the operand that is outside 30 bits.
pub fn write(module: &Module) -> Result<Vec<u8>, i64> {
    write_dis(module).map_err(|WriteError::OperandOutOfRange(value)| value as i64)
}

fn section_number(name: &str) -> i64 {
    match name {
        "header" => 1,
        "code" => 2,
        "type" => 3,
        "data" => 4,
        "module name" => 5,
        "export" => 6,
        "import" => 7,
        "handler" => 8,
        _ => panic!("a section that the sources don't name: {name}"),
    }
}

fn told(why: &LoadError) -> Told {
    let refusal = |number, section, place, detail| Told { number, section, place, detail };
    match why {
        LoadError::UnexpectedEof { section } => refusal(2, section_number(section), None, Some(0)),
        LoadError::InvalidMagic(value) => refusal(3, 1, Some(0), Some(*value as i64)),
        LoadError::InvalidOpcode(byte) => refusal(6, 2, None, Some(*byte as i64)),
        LoadError::InvalidAddressMode(mode) => refusal(7, 2, None, Some(*mode as i64)),
        LoadError::InvalidDataType(nibble) => refusal(8, 4, None, Some(*nibble as i64)),
        LoadError::Other(text) if text.contains("import") => refusal(9, 7, None, None),
        LoadError::Other(_) => refusal(9, 8, None, None),
        LoadError::ValidationError(text) => {
            told_by_text(text).unwrap_or_else(|| panic!("a text that the sources don't have: {text}"))
        }
    }
}

/// The texts of `checked_count`, `checked_offset` and `validate_module`. A name may hold anything, so an export's is
/// looked for from the end.
fn told_by_text(text: &str) -> Option<Told> {
    let first_number = |s: &str| s.split(' ').next()?.trim_end_matches(']').parse::<i64>().ok();
    let refusal = |number, section, place, detail| Some(Told { number, section, place, detail });
    if let Some(rest) = text.strip_prefix("negative count ") {
        let (value, rest) = rest.split_once(" in ")?;
        let section = section_number(rest.strip_suffix(" section")?);
        return refusal(4, section, None, value.parse().ok());
    }
    if let Some(rest) = text.strip_prefix("negative offset ") {
        return refusal(5, 4, None, first_number(rest));
    }
    if let Some(rest) = text.strip_prefix("entry_pc ") {
        return refusal(10, 1, Some(0), first_number(rest));
    }
    if let Some(rest) = text.strip_prefix("entry_type ") {
        return refusal(11, 1, Some(0), first_number(rest));
    }
    if text.starts_with("MUST_COMPILE") {
        return refusal(12, 1, Some(0), None);
    }
    if let Some(rest) = text.strip_prefix("export[") {
        let place = first_number(rest);
        let (_, said) = rest.rsplit_once("' has ")?;
        let (field, value) = said.split_once(' ')?;
        let number = if field == "pc" { 13 } else { 14 };
        return refusal(number, 6, place, first_number(value));
    }
    let (place, said) = text.strip_prefix("handler[")?.split_once("] ")?;
    let place = place.parse().ok();
    if let Some((_, end)) = said.split_once(">= end_pc ") {
        return refusal(17, 8, place, first_number(end));
    }
    if let Some(rest) = said.strip_prefix("case[") {
        return refusal(19, 8, place, first_number(rest));
    }
    let (field, value) = said.split_once(' ')?;
    let value = first_number(value);
    match field {
        "begin_pc" => refusal(15, 8, place, value),
        "end_pc" => refusal(16, 8, place, value),
        // The Rust keeps it as a u32 of the same bits.
        "type_descriptor" => refusal(18, 8, place, value.map(|v| v as u32 as i32 as i64)),
        _ => None,
    }
}
