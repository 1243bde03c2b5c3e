//! Rules T, for the tables of a container.

use crate::tables::columns::{DATA, FLOAT, STRING, is_constant, width};
use crate::tables::domain::{MOST_COLUMNS, MOST_ROWS};
use crate::tables::header;

/// Why a table is refused: the number, and the type that comes with 8.
#[derive(Clone, Copy)]
pub struct Cause {
    pub number: u8,
    pub column_type: u8,
}

const RAN_OUT: Cause = Cause { number: 1, column_type: 0 };
const NO_TABLE: Cause = Cause { number: 3, column_type: 0 };
const TOO_SMALL: Cause = Cause { number: 9, column_type: 0 };
const TOO_MANY: Cause = Cause { number: 10, column_type: 0 };

/// A value, as far as a container's header asks for it.
#[derive(Clone, Copy)]
pub enum Cell {
    /// A number as a codec.
    Number(u32),
    Float,
    /// A string or data: where it starts in the container, and its length.
    Part {
        start: u64,
        length: u64,
    },
}

pub struct Table {
    names: Vec<Vec<u8>>,
    rows: Vec<Vec<Cell>>,
}

impl Table {
    /// The cell of the last column with this name.
    fn cell(&self, name: &[u8], row: Option<&Vec<Cell>>) -> Option<Cell> {
        let column = self.names.iter().rposition(|other| other == name)?;
        Some(row?[column])
    }

    pub fn in_first_row(&self, name: &[u8]) -> Option<Cell> {
        self.cell(name, self.rows.first())
    }

    pub fn in_last_row(&self, name: &[u8]) -> Option<Cell> {
        self.cell(name, self.rows.last())
    }
}

/// The table at a place of a container, read and checked whole.
pub fn read(container: &[u8], place: u64) -> Result<Table, Cause> {
    let rest = container.get(place as usize..).ok_or(RAN_OUT)?;
    if rest.get(..header::SIGNATURE.len()).ok_or(RAN_OUT)? != header::SIGNATURE {
        return Err(NO_TABLE);
    }
    let head = rest.get(..header::LENGTH).ok_or(RAN_OUT)?;
    let size = u64::from(header::SIZE.get(head));
    let length = size.checked_sub(header::BODY).ok_or(TOO_SMALL)?;
    let bytes = rest[header::LENGTH..].get(..length as usize).ok_or(RAN_OUT)?;
    if header::COLUMNS.get(head) > MOST_COLUMNS || header::ROWS.get(head) > MOST_ROWS {
        return Err(TOO_MANY);
    }
    let body = Body {
        bytes,
        start: place + header::LENGTH as u64,
        strings: header::STRING_OFFSET.get(head).into(),
        data: header::DATA_OFFSET.get(head).into(),
    };
    let columns = body.columns(header::COLUMNS.get(head))?;
    let rows = body.rows(&columns, header::ROW_OFFSET.get(head).into(), header::ROWS.get(head))?;
    Ok(Table { names: columns.into_iter().map(|column| column.name).collect(), rows })
}

struct Column {
    name: Vec<u8>,
    column_type: u8,
    constant: Option<Cell>,
}

/// The body of a table. Places in it count as the header's offsets do: the first byte is place 24.
struct Body<'a> {
    bytes: &'a [u8],
    /// Where it begins in the container.
    start: u64,
    strings: u64,
    data: u64,
}

impl Body<'_> {
    fn columns(&self, count: u32) -> Result<Vec<Column>, Cause> {
        let mut place = header::BODY;
        (0..count).map(|_| self.column(&mut place)).collect()
    }

    fn column(&self, place: &mut u64) -> Result<Column, Cause> {
        let type_byte = self.take(place, 1)? as u8;
        let name = self.strings + self.take(place, 4)?;
        let name = self.from(name)?[..self.text(name)?].to_vec();
        let column_type = type_byte & 0xF;
        let constant = if is_constant(type_byte) { Some(self.value(column_type, place)?) } else { None };
        Ok(Column { name, column_type, constant })
    }

    fn rows(&self, columns: &[Column], row_offset: u64, count: u32) -> Result<Vec<Vec<Cell>>, Cause> {
        let mut place = row_offset;
        let mut cell = |column: &Column| match column.constant {
            Some(constant) => Ok(constant),
            None => self.value(column.column_type, &mut place),
        };
        (0..count).map(|_| columns.iter().map(&mut cell).collect()).collect()
    }

    fn value(&self, column_type: u8, place: &mut u64) -> Result<Cell, Cause> {
        let width = width(column_type) as u64;
        if width == 0 {
            return Err(Cause { number: 8, column_type });
        }
        let number = self.take(place, width)?;
        match column_type {
            FLOAT => Ok(Cell::Float),
            STRING => self.string(self.strings + number),
            DATA => self.data(self.data + (number >> 32), number & 0xFFFF_FFFF),
            1 => Ok(Cell::Number(number as i8 as u32)),
            3 => Ok(Cell::Number(number as i16 as u32)),
            _ => Ok(Cell::Number(number as u32)),
        }
    }

    fn string(&self, place: u64) -> Result<Cell, Cause> {
        let length = self.text(place)? as u64;
        Ok(Cell::Part { start: self.start + place - header::BODY, length })
    }

    fn data(&self, place: u64, length: u64) -> Result<Cell, Cause> {
        if length == 0 {
            return Ok(Cell::Part { start: 0, length });
        }
        self.from(place)?.get(..length as usize).ok_or(RAN_OUT)?;
        Ok(Cell::Part { start: self.start + place - header::BODY, length })
    }

    /// The length of the text at a place, which a zero byte ends.
    fn text(&self, place: u64) -> Result<usize, Cause> {
        self.from(place)?.iter().position(|&byte| byte == 0).ok_or(RAN_OUT)
    }

    /// The next bytes as a number.
    fn take(&self, place: &mut u64, width: u64) -> Result<u64, Cause> {
        let bytes = self.from(*place)?.get(..width as usize).ok_or(RAN_OUT)?;
        *place += width;
        Ok(bytes.iter().fold(0, |number, &byte| number << 8 | u64::from(byte)))
    }

    /// The body from a place on.
    fn from(&self, place: u64) -> Result<&[u8], Cause> {
        let at = place.checked_sub(header::BODY).ok_or(RAN_OUT)?;
        self.bytes.get(at as usize..).ok_or(RAN_OUT)
    }
}
