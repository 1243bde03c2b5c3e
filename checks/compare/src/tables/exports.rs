//! The functions of libusm.a that read tables, behind safe calls.

use std::ptr::null;

use crate::containers::exports::ReadingBytes;
use crate::containers::timing::WITH_AUDIO;
pub use crate::ffi::{CellReply, ColumnReply, TableReply};
use crate::ffi::{usm_cell, usm_cell_at, usm_column, usm_table};

// SAFETY, for the eight calls below: each pointer and length are those of one slice lent to this call.

pub fn table(bytes: &[u8], place: usize) -> TableReply {
    unsafe { usm_table(bytes.as_ptr(), bytes.len(), place, WITH_AUDIO) }
}

pub fn cell(bytes: &[u8], place: usize, name: &[u8], row: usize) -> CellReply {
    unsafe { usm_cell(bytes.as_ptr(), bytes.len(), place, name.as_ptr(), name.len(), row, WITH_AUDIO) }
}

pub fn column(bytes: &[u8], place: usize, number: usize) -> ColumnReply {
    unsafe { usm_column(bytes.as_ptr(), bytes.len(), place, number, WITH_AUDIO) }
}

pub fn cell_at(bytes: &[u8], place: usize, number: usize, row: usize) -> CellReply {
    unsafe { usm_cell_at(bytes.as_ptr(), bytes.len(), place, number, row, WITH_AUDIO) }
}

/// As `WITH_AUDIO` reads, with tables whose zero columns take no room.
const WITH_ZERO_COLUMNS: ReadingBytes = ReadingBytes { tables: 1, ..WITH_AUDIO };

pub fn table_with_zero_columns(bytes: &[u8]) -> TableReply {
    unsafe { usm_table(bytes.as_ptr(), bytes.len(), 0, WITH_ZERO_COLUMNS) }
}

pub fn cell_with_zero_columns(bytes: &[u8], name: &[u8], row: usize) -> CellReply {
    unsafe { usm_cell(bytes.as_ptr(), bytes.len(), 0, name.as_ptr(), name.len(), row, WITH_ZERO_COLUMNS) }
}

pub fn column_with_zero_columns(bytes: &[u8], number: usize) -> ColumnReply {
    unsafe { usm_column(bytes.as_ptr(), bytes.len(), 0, number, WITH_ZERO_COLUMNS) }
}

pub fn cell_at_with_zero_columns(bytes: &[u8], number: usize, row: usize) -> CellReply {
    unsafe { usm_cell_at(bytes.as_ptr(), bytes.len(), 0, number, row, WITH_ZERO_COLUMNS) }
}

/// The numbers of all four with NULL for every slice of length 0, which usm.h allows.
pub fn all_with_null(place: usize) -> [u8; 4] {
    // SAFETY: nothing is read through a pointer with length 0.
    unsafe {
        [
            usm_table(null(), 0, place, WITH_AUDIO).number,
            usm_cell(null(), 0, place, null(), 0, 0, WITH_AUDIO).number,
            usm_column(null(), 0, place, 0, WITH_AUDIO).number,
            usm_cell_at(null(), 0, place, 0, 0, WITH_AUDIO).number,
        ]
    }
}
