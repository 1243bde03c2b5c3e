//! @UTF tables. Whether a table is accepted, its columns and its cells come from the proved functions.

use std::fmt;

use crate::debug::Bytes;
use crate::sized::{fill, filled, size_of};
use crate::{Error, Refusal, Tables, ffi};

/// A table that is accepted: every name, text and cell lies within it.
#[derive(Clone)]
pub struct Table<'a> {
    bytes: &'a [u8],
    place: usize,
    row_count: usize,
    tables: Tables,
    columns: Vec<Column<'a>>,
}

/// A column of a table.
#[derive(Clone, Copy, PartialEq, Eq)]
#[non_exhaustive]
pub struct Column<'a> {
    /// The name, in any encoding.
    pub name: &'a [u8],
    /// How values are stored (high half) and what they are (low half).
    pub type_byte: u8,
    /// Whether all rows have one value: stored in the column, or 0 or empty in a zero column.
    pub constant: bool,
}

impl<'a> Column<'a> {
    /// The column of a number of an accepted table.
    fn of(bytes: &'a [u8], place: usize, number: usize, tables: Tables) -> Column<'a> {
        /// Where a column has its values: in each row.
        const ROWS: u8 = 2;
        let reply = ffi::column(bytes, place, number, tables.for_c());
        Column {
            name: &bytes[reply.name_start..][..reply.name_length],
            type_byte: reply.type_byte,
            constant: reply.storage != ROWS,
        }
    }
}

/// A value of a table. Strings and data are parts of the bytes that hold the table.
#[derive(Clone, Copy, PartialEq)]
pub enum Cell<'a> {
    /// A number.
    Unsigned(u64),
    /// A number with a sign.
    Signed(i64),
    /// A float, a NaN with its bits.
    Float(f32),
    /// The bytes of a string, in any encoding, without its zero byte.
    String(&'a [u8]),
    /// Data, which may be empty.
    Data(&'a [u8]),
}

impl<'a> Cell<'a> {
    /// The cell of a reply, in the bytes that hold the table; `None` where it has none.
    pub(crate) fn of(bytes: &'a [u8], reply: ffi::CellReply) -> Option<Cell<'a>> {
        let part = || &bytes[reply.value as usize..][..reply.length];
        match reply.kind {
            1 => Some(Cell::Unsigned(reply.value)),
            2 => Some(Cell::Signed(reply.value as i64)),
            3 => Some(Cell::Float(f32::from_bits(reply.value as u32))),
            4 => Some(Cell::String(part())),
            5 => Some(Cell::Data(part())),
            _ => None,
        }
    }
}

/// Reads and checks the table at a place of some bytes, such as a film.
///
/// ```
/// use usm::{Cell, Tables};
///
/// let film = std::fs::read("tests/song.usm")?;
/// let table = usm::table(&film, 32, Tables::Original)?;
/// assert_eq!(table.cell(b"filename", 0), Some(Cell::String(b"songs/lark.usm")));
/// for row in table.rows() {
///     for (column, cell) in table.columns().iter().zip(row.cells()) {
///         println!("{}: {cell:?}", String::from_utf8_lossy(column.name));
///     }
/// }
/// # Ok::<(), Box<dyn std::error::Error>>(())
/// ```
pub fn table(bytes: &[u8], place: usize, tables: Tables) -> Result<Table<'_>, Refusal> {
    let reply = ffi::table(bytes, place, tables.for_c());
    Refusal::check(reply.number, reply.refused_at, reply.unknown_type)?;
    let columns = (0..reply.columns).map(|number| Column::of(bytes, place, number, tables)).collect();
    Ok(Table { bytes, place, row_count: reply.rows, tables, columns })
}

/// The table at a place of some bytes as CSV, by RFC 4180: names, then rows. Numbers are decimal, data and the bits of
/// floats lower-case hex, strings their bytes. Read back by the RFC's rules the fields are the same (proved).
///
/// ```
/// let film = std::fs::read("tests/song.usm")?;
/// assert_eq!(usm::csv(&film, 32, usm::Tables::Original)?, b"filename\r\nsongs/lark.usm\r\n");
/// # Ok::<(), Box<dyn std::error::Error>>(())
/// ```
pub fn csv(bytes: &[u8], place: usize, tables: Tables) -> Result<Vec<u8>, Error> {
    filled(|text| ffi::csv(bytes, place, tables.for_c(), text))
}

/// The same into a vector, whose contents the text replaces. Where the table is refused the vector stays as it is.
pub fn csv_into(bytes: &[u8], place: usize, tables: Tables, text: &mut Vec<u8>) -> Result<(), Error> {
    fill(text, |text| ffi::csv(bytes, place, tables.for_c(), text))
}

/// The bytes of the text that [`csv`] gives. Cells may share a string, so that it can be far longer than the table.
pub fn csv_size(bytes: &[u8], place: usize, tables: Tables) -> Result<usize, Refusal> {
    size_of(|text| ffi::csv(bytes, place, tables.for_c(), text))
}

impl<'a> Table<'a> {
    /// The columns, in their order. There are 64 at most, and several may have one name.
    pub fn columns(&self) -> &[Column<'a>] {
        &self.columns
    }

    /// How many rows there are: 256 at most.
    pub fn row_count(&self) -> usize {
        self.row_count
    }

    /// The cell of the last column of a name in a row, counted from 0.
    pub fn cell(&self, name: &[u8], row: usize) -> Option<Cell<'a>> {
        Cell::of(self.bytes, ffi::cell(self.bytes, self.place, name, row, self.tables.for_c()))
    }

    /// The cell of the column of a number, counted from 0 as in [`columns`](Table::columns), in a row.
    pub fn cell_at(&self, column: usize, row: usize) -> Option<Cell<'a>> {
        Cell::of(self.bytes, ffi::cell_at(self.bytes, self.place, column, row, self.tables.for_c()))
    }

    /// The rows, in their order.
    pub fn rows(&self) -> impl ExactSizeIterator<Item = Row<'a, '_>> {
        (0..self.row_count).map(move |number| Row { table: self, number })
    }
}

/// A row of a table.
#[derive(Clone, Copy, Debug)]
pub struct Row<'a, 'b> {
    table: &'b Table<'a>,
    number: usize,
}

impl<'a, 'b> Row<'a, 'b> {
    /// The cells, one for each column.
    pub fn cells(self) -> impl ExactSizeIterator<Item = Cell<'a>> + use<'a, 'b> {
        // A table that is accepted has a cell in each column of each row.
        (0..self.table.columns.len())
            .map(move |column| self.table.cell_at(column, self.number).unwrap_or(Cell::Unsigned(0)))
    }
}

impl fmt::Debug for Table<'_> {
    fn fmt(&self, f: &mut fmt::Formatter) -> fmt::Result {
        f.debug_struct("Table")
            .field("place", &self.place)
            .field("columns", &self.columns)
            .field("rows", &self.row_count)
            .finish_non_exhaustive()
    }
}

impl fmt::Debug for Column<'_> {
    fn fmt(&self, f: &mut fmt::Formatter) -> fmt::Result {
        f.debug_struct("Column")
            .field("name", &Bytes(self.name))
            .field("type_byte", &self.type_byte)
            .field("constant", &self.constant)
            .finish()
    }
}

impl fmt::Debug for Cell<'_> {
    fn fmt(&self, f: &mut fmt::Formatter) -> fmt::Result {
        match self {
            Cell::Unsigned(number) => f.debug_tuple("Unsigned").field(number).finish(),
            Cell::Signed(number) => f.debug_tuple("Signed").field(number).finish(),
            Cell::Float(float) => f.debug_tuple("Float").field(float).finish(),
            Cell::String(text) => f.debug_tuple("String").field(&Bytes(text)).finish(),
            Cell::Data(data) => f.debug_tuple("Data").field(&Bytes(data)).finish(),
        }
    }
}
