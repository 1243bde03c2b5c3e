//! Tables made by hand, at least one for each rule of docs/RULES.md: for the check and for the record.

use super::case::Case;
use super::columns::{CONSTANT, DATA, FLOAT, KNOWN_TYPES, STORED, STRING, UNKNOWN_TYPES, is_constant};
use super::damage;
use super::header::{COLUMNS, DATA_OFFSET, ROW_OFFSET, ROWS, SIZE, STRING_OFFSET};
use super::sketch::Sketch;
use crate::damage::cut;

pub fn all() -> Vec<Case> {
    let groups =
        [types_and_storages(), unknown_types(), numbers(), counts(), names(), strings(), data(), rows(), slices()];
    groups.into_iter().flatten().collect()
}

/// Columns of several kinds in two rows, for damaged copies.
pub fn mixed() -> Case {
    let mut table = Sketch::default();
    let film = table.text(b"film");
    table.column(STORED | STRING, b"n", &[]);
    table.column(CONSTANT | 3, b"s", &[0x80, 0]);
    table.column(STORED | DATA, b"d", &[]);
    let part = table.data(b"xyz");
    table.row(&[&film.to_be_bytes()[..], &part].concat());
    table.row(&[film + 1, 0, 0].map(u32::to_be_bytes).concat());
    table.case()
}

/// Every known type with every storage.
fn types_and_storages() -> Vec<Case> {
    (0..16).map(|storage| all_types(storage << 4)).collect()
}

fn all_types(storage: u8) -> Case {
    let mut table = Sketch::default();
    let text = table.text(b"text");
    let part = table.data(b"\0part");
    let mut row = Vec::new();
    for column_type in KNOWN_TYPES {
        let value = match column_type {
            STRING => text.to_be_bytes().to_vec(),
            DATA => part.to_vec(),
            6 => vec![0x89, 1, 2, 3, 4, 5, 6, 7],
            4 | 5 | FLOAT => vec![0xFF, 0x91, 0x92, 0x93],
            2 | 3 => vec![0xFE, 0xA1],
            _ => vec![0xD0 + column_type],
        };
        let type_byte = storage | column_type;
        let name = [b'a' + column_type];
        table.column(type_byte, &name, if is_constant(type_byte) { &value } else { &[] });
        if !is_constant(type_byte) {
            row.extend(value);
        }
    }
    table.row(&row);
    table.case()
}

/// An unknown type counts when its value would be read.
fn unknown_types() -> Vec<Case> {
    let mut cases = Vec::new();
    for column_type in UNKNOWN_TYPES {
        cases.push(one_column(STORED | column_type, &[], &[&[0; 8]]));
        cases.push(one_column(STORED | column_type, &[], &[]));
        cases.push(one_column(CONSTANT | column_type, &[0; 8], &[]));
    }
    for storage in 0..16 {
        let column_type = UNKNOWN_TYPES[usize::from(storage) % UNKNOWN_TYPES.len()];
        cases.push(one_column(storage << 4 | column_type, &[], &[&[]]));
    }
    let without_row_bytes = one_column(STORED | 9, &[], &[&[]]);
    cases.push(damage::with_field(&without_row_bytes, ROW_OFFSET, 0xFFFF));
    cases
}

/// A table with one column, named `c`.
fn one_column(type_byte: u8, constant: &[u8], rows: &[&[u8]]) -> Case {
    let mut table = Sketch::default();
    table.column(type_byte, b"c", constant);
    rows.iter().for_each(|row| table.row(row));
    table.case()
}

/// Signs, minima and maxima; a NaN's bits.
fn numbers() -> Vec<Case> {
    vec![
        one_column(STORED | 1, &[], &[&[0xFF], &[0x80], &[0x7F], &[0]]),
        one_column(STORED | 3, &[], &[&[0xFF, 0xFF], &[0x80, 0], &[0x7F, 0xFF]]),
        one_column(STORED | 5, &[], &[&[0xFF; 4], &[0x80, 0, 0, 0], &[0x7F, 0xFF, 0xFF, 0xFF]]),
        one_column(STORED | 6, &[], &[&[0, 0, 0, 1, 0, 0, 0, 9], &[0xFF; 8], &[0x80, 0, 0, 0, 0, 0, 0, 0]]),
        one_column(STORED | FLOAT, &[], &[&[0x7F, 0xC0, 0, 0], &[0x7F, 0x80, 0, 1], &[0xFF; 4], &[0x80, 0, 0, 0]]),
    ]
}

/// No column, no row, neither; the most of each.
fn counts() -> Vec<Case> {
    let mut rows_of_nothing = Sketch::default();
    rows_of_nothing.ask(b"a");
    (0..3).for_each(|_| rows_of_nothing.row(&[]));
    let mut most_rows = Sketch::default();
    most_rows.column(STORED, b"r", &[]);
    (0..=255).for_each(|row| most_rows.row(&[row]));
    let mut most_columns = Sketch::default();
    (0..63).for_each(|_| most_columns.column_named_at(STORED, 0, &[]));
    most_columns.column(STORED, b"z", &[]);
    let numbers: Vec<u8> = (0..64).collect();
    most_columns.row(&numbers);
    vec![
        Sketch::default().case(),
        rows_of_nothing.case(),
        one_column(CONSTANT | 2, &[1, 2], &[]),
        one_column(STORED | 2, &[], &[]),
        most_rows.case(),
        most_columns.case(),
        most_columns.case_with(&[(ROWS, 2)]),
    ]
}

/// Repeated, parts of one another, long, beyond ASCII, not UTF-8, outside the body.
fn names() -> Vec<Case> {
    let mut cases = vec![repeated_name(), repeated_by_a_constant(), parts_of_one_name(), odd_names(), not_utf8()];
    cases.extend([1, 2, u32::MAX, u32::MAX - 28].map(name_at));
    cases
}

fn repeated_name() -> Case {
    let mut table = Sketch::default();
    let text = table.text(b"t");
    table.column(STORED | STRING, b"name", &[]);
    table.column(CONSTANT, b"name", &[7]);
    table.column(STORED | 1, b"other", &[]);
    table.column(STORED | 1, b"name", &[]);
    table.row(&[&text.to_be_bytes()[..], &[1, 0xFE]].concat());
    table.case()
}

fn repeated_by_a_constant() -> Case {
    let mut table = Sketch::default();
    table.column(STORED, b"name", &[]);
    table.column(CONSTANT | 1, b"name", &[0x80]);
    table.row(&[1]);
    table.row(&[2]);
    table.case()
}

/// Columns `abc`, `bc` and the empty name, on one text.
fn parts_of_one_name() -> Case {
    let mut table = Sketch::default();
    table.column(STORED, b"abc", &[]);
    table.column_named_at(STORED, 1, &[]);
    table.column_named_at(STORED, 3, &[]);
    for name in ["bc", "", "ab", "c", "abcd"] {
        table.ask(name.as_bytes());
    }
    table.row(&[1, 2, 3]);
    table.case()
}

fn odd_names() -> Case {
    let mut table = Sketch::default();
    table.column(STORED, &[b'n'; 70], &[]);
    table.column(STORED, "é映".as_bytes(), &[]);
    table.ask(&[b'n'; 69]);
    table.ask(&[b'n'; 71]);
    table.row(&[1, 2]);
    table.case()
}

/// The original takes FF and FE for one name.
fn not_utf8() -> Case {
    let mut table = Sketch::default();
    table.column(STORED, b"\xFF", &[]);
    table.column(STORED, b"\xFE", &[]);
    table.column(STORED, b"a", &[]);
    table.row(&[1, 2, 3]);
    table.case()
}

/// A name where a pointer leads from the text `a`, two bytes before the body's end.
fn name_at(pointer: u32) -> Case {
    let mut table = Sketch::default();
    table.text(b"a");
    table.column_named_at(STORED, pointer, &[]);
    table.case()
}

/// Strings of a stored column and of a constant one at each edge of the body, 24 to 36, and where 32 bits would wrap.
fn strings() -> Vec<Case> {
    let places = [(0, 0), (0, 23), (0, 24), (24, 24), (33, 34), (35, 35), (0, 36), (0, 37), (33, (1 << 32) + 32)];
    let mut cases = Vec::new();
    for storage in [STORED, CONSTANT] {
        cases.extend(places.map(|(offset, place)| string_at(storage, offset, place)));
    }
    cases
}

/// A string at a place, given by an offset. Its column's name is the empty text at the body's last byte, 35.
fn string_at(storage: u8, offset: u32, place: u64) -> Case {
    let mut table = Sketch::default();
    table.text(b"ab");
    put_value(&mut table, storage | STRING, 35 - offset, &pointer(place, offset));
    table.case_with(&[(STRING_OFFSET, offset)])
}

/// Data of a stored column and of a constant one at each edge of the body, 24 to 42; empty data anywhere.
fn data() -> Vec<Case> {
    let empty = [(0, 0), (0, 24), (0, 42), (0, 43), (39, u64::from(u32::MAX)), (u32::MAX, 1 << 32)];
    let inside = [(0, 24, 18), (39, 39, 3), (0, 41, 1), (24, 26, 1)];
    let outside =
        [(0, 23, 1), (0, 23, 2), (0, 42, 1), (0, 41, 2), (0, 24, 19), (39, (1 << 32) + 30, 1), (0, 24, u32::MAX)];
    let mut cases = Vec::new();
    for storage in [STORED, CONSTANT] {
        cases.extend(empty.map(|(offset, place)| data_at(storage, offset, place, 0)));
        cases.extend(inside.map(|(offset, place, size)| data_at(storage, offset, place, size)));
        cases.extend(outside.map(|(offset, place, size)| data_at(storage, offset, place, size)));
    }
    cases
}

fn data_at(storage: u8, offset: u32, place: u64, size: u32) -> Case {
    let mut table = Sketch::default();
    table.text(b"");
    table.text(b"");
    table.data(b"xyz");
    let value = [pointer(place, offset), size.to_be_bytes()].concat();
    put_value(&mut table, storage | DATA, 0, &value);
    table.case_with(&[(DATA_OFFSET, offset)])
}

/// One row, and one column with the empty name, whose value stands where its storage says.
fn put_value(table: &mut Sketch, type_byte: u8, name: u32, value: &[u8]) {
    let (constant, row) = if is_constant(type_byte) { (value, &[][..]) } else { (&[][..], value) };
    table.column_named_at(type_byte, name, constant);
    table.row(row);
    table.ask(b"");
}

/// The bytes that lead from an offset to a place.
fn pointer(place: u64, offset: u32) -> [u8; 4] {
    ((place - u64::from(offset)) as u32).to_be_bytes()
}

/// Row offsets before, in and after the body; rows that are missing.
fn rows() -> Vec<Case> {
    let mut stored = Sketch::default();
    stored.column(STORED | 2, b"a", &[]);
    stored.column(CONSTANT, b"b", &[5]);
    stored.row(&[1, 2]);
    stored.row(&[3, 4]);
    let end = SIZE.get(stored.case().table());
    let mut constants = Sketch::default();
    constants.column(CONSTANT, b"a", &[9]);
    constants.row(&[]);
    let mut cases = vec![stored.case()];
    cases.extend([0, 23, 24, end - 4, end - 3, end, 0xFFFF].map(|offset| stored.case_with(&[(ROW_OFFSET, offset)])));
    cases.extend([0, 3, 200].map(|rows| stored.case_with(&[(ROWS, rows)])));
    cases.extend([0, 0xFFFF].map(|offset| constants.case_with(&[(ROW_OFFSET, offset)])));
    cases.extend([0, 0xFFFF].map(|offset| stored.case_with(&[(ROW_OFFSET, offset), (ROWS, 0)])));
    cases
}

/// Slices without a signature, without a header, without a body, and with bytes after the body.
fn slices() -> Vec<Case> {
    let texts: [&[u8]; 6] = [b"", b"@UT", b"XUT", b"XUTF", b"@UTF", b"@UTG and no table"];
    let mut cases: Vec<Case> = texts.map(|slice| Case::new(slice, 0, vec![b"a".to_vec()])).into();
    let table = one_column(STORED, &[], &[&[1]]);
    let size = SIZE.get(table.table());
    let without_last_byte = cut(&table, table.length - 1);
    cases.extend([31, 32].map(|length| cut(&table, length)));
    cases.extend([24, size - 1, size + 1].map(|size| damage::with_field(&table, SIZE, size)));
    cases.extend([(COLUMNS, 1), (COLUMNS, 65), (ROWS, 257)].map(|(f, n)| damage::with_field(&without_last_byte, f, n)));
    cases.push(followed(&table, size));
    cases.push(followed(&table, size - 1));
    cases.push(followed(&data_at(STORED, 0, 41, 2), 42));
    cases
}

/// A table that claims this size, with bytes after it.
fn followed(table: &Case, size: u32) -> Case {
    let slice = [table.slice(), &b"more\0"[..]].concat();
    damage::with_field(&Case::new(&slice, 0, table.names.clone()), SIZE, size)
}
