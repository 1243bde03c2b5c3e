//! The original's reader of tables, in the words of the rules.

use std::io::ErrorKind;

use oracle::usm::extractor::{UsmError, UtfTable, UtfValue, access};

use super::answer::{Cell, Refusal};
use crate::panics::caught;

/// A table as the original has it: a map from decoded names to values for each row.
pub struct Table(UtfTable);

pub enum Answer {
    Accepted(Table),
    Refused(Refusal),
    Panicked(String),
}

/// What the original makes of the table that begins at `place`. It panics where a sum overflows.
pub fn read(bytes: &[u8], place: usize) -> Answer {
    match caught(|| access::get_utf_table(bytes, place as u64)) {
        Ok(Ok(table)) => Answer::Accepted(Table(table)),
        Ok(Err(error)) => Answer::Refused(refusal(&error)),
        Err(what) => Answer::Panicked(what),
    }
}

/// A name that the original keeps as it is. It decodes names: one that is not UTF-8 becomes another,
/// with U+FFFD in it, and can no longer be distinguished from others.
pub fn kept(name: &[u8]) -> Option<&str> {
    std::str::from_utf8(name).ok().filter(|name| !name.contains('\u{FFFD}'))
}

fn refusal(error: &UsmError) -> Refusal {
    match error {
        UsmError::Io(error) if error.kind() == ErrorKind::UnexpectedEof => Refusal::BytesRunOut,
        UsmError::InvalidUtfSignature => Refusal::NoTable,
        UsmError::UnknownColumnType(column_type) => Refusal::UnknownType(*column_type),
        error => panic!("no table gives this error: {error}"),
    }
}

impl Table {
    pub fn rows(&self) -> usize {
        self.0.len()
    }

    /// The names of the columns, decoded, in no order; none where there is no row.
    pub fn names(&self) -> impl Iterator<Item = &str> {
        self.0.first().into_iter().flatten().map(|(name, _)| name.as_str())
    }

    /// The cell of a name and row, nothing where the original has none.
    pub fn cell(&self, name: &str, row: usize) -> Cell {
        match self.0.get(row).and_then(|row| row.get(name)) {
            Some(value) => cell(value),
            None => Cell::Nothing,
        }
    }
}

fn cell(value: &UtfValue) -> Cell {
    match value {
        UtfValue::Byte(number) => Cell::Unsigned((*number).into()),
        UtfValue::UShort(number) => Cell::Unsigned((*number).into()),
        UtfValue::UInt(number) => Cell::Unsigned((*number).into()),
        UtfValue::ULong(number) => Cell::Unsigned(*number),
        UtfValue::SByte(number) => Cell::Signed((*number).into()),
        UtfValue::Short(number) => Cell::Signed((*number).into()),
        UtfValue::Int(number) => Cell::Signed((*number).into()),
        UtfValue::Float(number) => Cell::Float(number.to_bits()),
        UtfValue::String(bytes) => Cell::String(bytes.clone()),
        UtfValue::Data(bytes) => Cell::Data(bytes.clone()),
    }
}
