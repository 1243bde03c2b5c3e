//! A table put together by hand: columns, rows, texts and data, one after the other without gaps.

use super::case::Case;
use super::header;

#[derive(Default)]
pub struct Sketch {
    columns: Vec<u8>,
    column_count: u32,
    rows: Vec<u8>,
    row_count: u32,
    texts: Vec<u8>,
    data: Vec<u8>,
    names: Vec<Vec<u8>>,
}

impl Sketch {
    /// Adds a text with its zero byte; gives its pointer.
    pub fn text(&mut self, text: &[u8]) -> u32 {
        let pointer = self.texts.len() as u32;
        self.texts.extend(text);
        self.texts.push(0);
        pointer
    }

    /// Adds data; gives its pointer and size as they stand in a cell.
    pub fn data(&mut self, data: &[u8]) -> [u8; 8] {
        let pointer = self.data.len() as u32;
        self.data.extend(data);
        (u64::from(pointer) << 32 | data.len() as u64).to_be_bytes()
    }

    /// A column with a new text as its name. The value of a constant follows; a stored one has none here.
    pub fn column(&mut self, type_byte: u8, name: &[u8], value: &[u8]) {
        let pointer = self.text(name);
        self.names.push(name.to_vec());
        self.column_named_at(type_byte, pointer, value);
    }

    /// A column whose name is where a pointer leads.
    pub fn column_named_at(&mut self, type_byte: u8, pointer: u32, value: &[u8]) {
        self.columns.push(type_byte);
        self.columns.extend(pointer.to_be_bytes());
        self.columns.extend(value);
        self.column_count += 1;
    }

    /// A row with these bytes for its stored columns.
    pub fn row(&mut self, bytes: &[u8]) {
        self.rows.extend(bytes);
        self.row_count += 1;
    }

    /// A name to ask for.
    pub fn ask(&mut self, name: &[u8]) {
        self.names.push(name.to_vec());
    }

    /// The table at byte 0 of a slice that it fills.
    pub fn case(&self) -> Case {
        Case::new(&self.bytes(), 0, self.names.clone())
    }

    /// The same, with some fields of the header changed.
    pub fn case_with(&self, fields: &[(header::Field, u32)]) -> Case {
        let mut case = self.case();
        for &(field, number) in fields {
            field.set(case.table_mut(), number);
        }
        case
    }

    pub fn bytes(&self) -> Vec<u8> {
        let rows = header::BODY as usize + self.columns.len();
        let texts = rows + self.rows.len();
        let data = texts + self.texts.len();
        let mut table = header::blank();
        header::SIZE.set(&mut table, (data + self.data.len()) as u32);
        header::VERSION.set(&mut table, 1);
        header::ROW_OFFSET.set(&mut table, rows as u32);
        header::STRING_OFFSET.set(&mut table, texts as u32);
        header::DATA_OFFSET.set(&mut table, data as u32);
        header::COLUMNS.set(&mut table, self.column_count);
        header::ROWS.set(&mut table, self.row_count);
        [&table, &self.columns, &self.rows, &self.texts, &self.data].map(|part| &part[..]).concat()
    }
}
