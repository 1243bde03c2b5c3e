//! What a reader of tables answers, and the words for it in a record and in a disagreement.

use std::fmt;

use crate::hex::hex;

/// A cell, with the bytes of its part.
#[derive(Clone, PartialEq, Eq)]
pub enum Cell {
    Nothing,
    Unsigned(u64),
    Signed(i64),
    /// A float's 32 bits.
    Float(u32),
    String(Vec<u8>),
    Data(Vec<u8>),
}

impl fmt::Display for Cell {
    fn fmt(&self, f: &mut fmt::Formatter) -> fmt::Result {
        match self {
            Cell::Nothing => write!(f, "nothing"),
            Cell::Unsigned(number) => write!(f, "unsigned {number}"),
            Cell::Signed(number) => write!(f, "signed {number}"),
            Cell::Float(bits) => write!(f, "float {bits:08x}"),
            Cell::String(bytes) => write!(f, "string {}", hex(bytes)),
            Cell::Data(bytes) => write!(f, "data {}", hex(bytes)),
        }
    }
}

/// Why a table is refused: the number of the refusal.
#[derive(Clone, Copy, PartialEq, Eq)]
pub enum Refusal {
    BytesRunOut,
    NoTable,
    UnknownType(u8),
    SizeTooSmall,
    OverLimit,
}

impl Refusal {
    pub fn number(self) -> u8 {
        match self {
            Refusal::BytesRunOut => 1,
            Refusal::NoTable => 3,
            Refusal::UnknownType(_) => 8,
            Refusal::SizeTooSmall => 9,
            Refusal::OverLimit => 10,
        }
    }

    /// The type that comes with 8, else 0.
    pub fn column_type(self) -> u8 {
        match self {
            Refusal::UnknownType(column_type) => column_type,
            _ => 0,
        }
    }
}

impl fmt::Display for Refusal {
    fn fmt(&self, f: &mut fmt::Formatter) -> fmt::Result {
        match self {
            Refusal::UnknownType(column_type) => write!(f, "refused 8 type {column_type}"),
            _ => write!(f, "refused {}", self.number()),
        }
    }
}
