//! `usm table`: the tables of a film's header, or one at a place.

use std::fmt::{self, Display};
use std::io::Write;
use std::path::Path;

use clap::Args;
use serde::ser::SerializeSeq;
use serde::{Serialize, Serializer};
use usm::{Cell, Column, Row};

use crate::options::limit::{LimitOption, place};
use crate::options::reading::TableOptions;
use crate::output::csv::{SpreadsheetOption, for_spreadsheets, is_plain_text};
use crate::output::json::{self, About, AsHex, AsText};
use crate::output::text::{CUT, Hex, Shown, is_plain};
use crate::output::{Error, Status};
use crate::output::{Output, print_to, report, report_error};
use crate::run::sources::Films;
use crate::run::tables::{opening, text_of};
use crate::run::workers::{self, Film, Task, Turn, WholeFilm};

/// Show the tables of films' headers
///
/// All tables of a film's header, each with its place; or the one at a place, of any file.
#[derive(Args)]
pub struct Table {
    #[command(flatten)]
    films: Films,
    /// The table at this place, a number of bytes (0x in front: in hex)
    #[arg(long, value_name = "PLACE", value_parser = place)]
    at: Option<usize>,
    /// Write the table at the place of one file as CSV, by RFC 4180: names, then rows; data and floats in hex
    #[arg(long, conflicts_with = "json", requires = "at")]
    csv: bool,
    #[command(flatten)]
    spreadsheet: SpreadsheetOption,
    #[command(flatten)]
    tables: TableOptions,
    #[command(flatten)]
    limit: LimitOption,
}

impl Table {
    pub fn run(self) -> Status {
        if self.csv && !matches!(&self.films.files[..], [file] if !file.is_dir()) {
            return report(Status::Failed, "--csv writes one table: name one file");
        }
        match self.films.sources() {
            Ok(sources) => workers::run(&self, &sources, &self.films.options),
            Err(error) => report_error(error),
        }
    }
}

impl Task for Table {
    fn film<'a>(&'a self, film: Film<'a, '_>, turn: &Turn<'a, '_>) -> Result<(), Error> {
        let label = film.label;
        match self.at {
            Some(place) if self.csv => self.print_csv(film, place, turn),
            Some(place) => {
                let WholeFilm { bytes, .. } = film.read()?;
                let table = usm::table(bytes, place, self.tables.tables())?;
                self.print(label, &[Placed { letters: None, place, table }], turn)
            }
            None => {
                let opening = opening(film.input.reader(self.tables.reading(), film.meter)?)?;
                let placed = opening.tables.iter().map(|found| {
                    let table = usm::table(&opening.bytes, found.place, self.tables.tables())?;
                    Ok(Placed { letters: Some(found.letters), place: found.place, table })
                });
                self.print(label, &placed.collect::<Result<Vec<_>, Error>>()?, turn)
            }
        }
    }
}

impl Table {
    fn print_csv(&self, film: Film, place: usize, turn: &Turn) -> Result<(), Error> {
        let WholeFilm { bytes, made: text } = film.read()?;
        text_of(bytes, place, self.tables.tables(), &mut self.limit.limit(), text)?;
        if self.spreadsheet.spreadsheet {
            *text = for_spreadsheets(text)?;
        }
        let mut printer = turn.take();
        if printer.is_terminal() && !is_plain_text(text) {
            let why = "the table holds bytes that a terminal would obey: write it to a file, by > FILE or usm csv";
            return Err(Error::System(why.to_string()));
        }
        printer.write_all(text).map_err(Error::Output)
    }

    fn print(&self, label: &Path, tables: &[Placed], turn: &Turn) -> Result<(), Error> {
        if self.films.options.json {
            let mut limit = self.limit.limit();
            let object = Object { about: About::new("tables", label), tables };
            limit.take(json::size_within(&object, limit.left()).ok_or_else(|| limit.exceeded())?)?;
            return turn.take().object(&object);
        }
        let mut printer = turn.take();
        tables.iter().try_for_each(|placed| print_table(label, placed, &mut printer))
    }
}

/// A table, its place, and the letters of its block where it is one of a header.
struct Placed<'a> {
    letters: Option<[u8; 4]>,
    place: usize,
    table: usm::Table<'a>,
}

/// So many bytes of data are shown to a person.
const SHOWN: usize = 32;

fn print_table(label: &Path, placed: &Placed, output: &mut Output) -> Result<(), Error> {
    let Placed { letters, place, table } = placed;
    output.gap()?;
    let block = letters.map_or(String::new(), |letters| format!("{} ", Shown::bytes(&letters)));
    let (columns, rows) = (table.columns().len(), table.row_count());
    print_to!(output, "{}: {block}table at {place}: columns {columns}, rows {rows}\n", Shown::path(label));
    for (number, row) in table.rows().enumerate() {
        if rows > 1 {
            print_to!(output, "row {number}\n");
        }
        for (column, cell) in table.columns().iter().zip(row.cells()) {
            print_to!(output, "  {}  {}\n", Shown::cut(column.name), ForPerson(cell));
        }
    }
    if rows == 0 {
        for column in table.columns() {
            print_to!(output, "  {}\n", Shown::cut(column.name));
        }
    }
    Ok(())
}

struct ForPerson<'a>(Cell<'a>);

impl Display for ForPerson<'_> {
    fn fmt(&self, f: &mut fmt::Formatter) -> fmt::Result {
        match self.0 {
            Cell::Unsigned(number) => write!(f, "{number}"),
            Cell::Signed(number) => write!(f, "{number}"),
            Cell::Float(float) => write!(f, "{float} ({:08x})", float.to_bits()),
            Cell::String(text) if text.len() > CUT => write!(f, "\"{}\" {} bytes", Shown::cut(text), text.len()),
            Cell::String(text) => write!(f, "\"{}\"", Shown::bytes(text)),
            Cell::Data(data) if is_text(data) => write!(f, "\"{}\" (data, {} bytes)", Shown::cut(data), data.len()),
            Cell::Data(data) if data.len() > SHOWN => write!(f, "{}.. {} bytes", Hex(&data[..SHOWN]), data.len()),
            Cell::Data(data) => write!(f, "{} {} bytes", Hex(data), data.len()),
        }
    }
}

/// Whether data, such as the name of a film that is packed, can be shown as text.
fn is_text(data: &[u8]) -> bool {
    !data.is_empty() && std::str::from_utf8(data).is_ok_and(|text| text.chars().all(is_plain))
}

#[derive(Serialize)]
struct Object<'a> {
    #[serde(flatten)]
    about: About<'a>,
    tables: &'a [Placed<'a>],
}

impl Serialize for Placed<'_> {
    fn serialize<S: Serializer>(&self, serializer: S) -> Result<S::Ok, S::Error> {
        #[derive(Serialize)]
        struct Whole<'a> {
            #[serde(skip_serializing_if = "Option::is_none")]
            block: Option<AsText<'a>>,
            place: usize,
            columns: Vec<Named<'a>>,
            rows: Rows<'a>,
        }
        Whole {
            block: self.letters.as_ref().map(|letters| AsText(letters)),
            place: self.place,
            columns: self.table.columns().iter().map(Named::of).collect(),
            rows: Rows(&self.table),
        }
        .serialize(serializer)
    }
}

#[derive(Serialize)]
struct Named<'a> {
    name: AsText<'a>,
    name_hex: AsHex<'a>,
    #[serde(rename = "type")]
    type_byte: u8,
    constant: bool,
}

impl<'a> Named<'a> {
    fn of(column: &Column<'a>) -> Named<'a> {
        Named {
            name: AsText(column.name),
            name_hex: AsHex(column.name),
            type_byte: column.type_byte,
            constant: column.constant,
        }
    }
}

/// Rows, written one after the other.
struct Rows<'a>(&'a usm::Table<'a>);

impl Serialize for Rows<'_> {
    fn serialize<S: Serializer>(&self, serializer: S) -> Result<S::Ok, S::Error> {
        serializer.collect_seq(self.0.rows().map(Cells))
    }
}

struct Cells<'a, 'b>(Row<'a, 'b>);

impl Serialize for Cells<'_, '_> {
    fn serialize<S: Serializer>(&self, serializer: S) -> Result<S::Ok, S::Error> {
        let cells = self.0.cells();
        let mut sequence = serializer.serialize_seq(Some(cells.len()))?;
        for cell in cells {
            sequence.serialize_element(&Value::of(cell))?;
        }
        sequence.end()
    }
}

/// A cell: what it is, and its value, by which no digit is lost.
#[derive(Serialize)]
#[serde(tag = "is", rename_all = "lowercase")]
enum Value<'a> {
    Unsigned { value: String },
    Signed { value: String },
    Float { bits: String },
    String { text: AsText<'a>, hex: AsHex<'a> },
    Data { hex: AsHex<'a> },
}

impl<'a> Value<'a> {
    fn of(cell: Cell<'a>) -> Value<'a> {
        match cell {
            Cell::Unsigned(number) => Value::Unsigned { value: number.to_string() },
            Cell::Signed(number) => Value::Signed { value: number.to_string() },
            Cell::Float(float) => Value::Float { bits: format!("{:08x}", float.to_bits()) },
            Cell::String(text) => Value::String { text: AsText(text), hex: AsHex(text) },
            Cell::Data(data) => Value::Data { hex: AsHex(data) },
        }
    }
}
