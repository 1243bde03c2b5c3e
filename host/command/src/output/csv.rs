//! CSV on standard output.

use std::borrow::Cow;

use clap::Args;

use crate::output::text::{Shown, Text, is_plain};
use crate::output::{Error, Output};

/// What every command that writes CSV takes.
#[derive(Args)]
pub struct SpreadsheetOption {
    /// Put ' in front of fields of CSV that a spreadsheet would run as a formula: those that begin with =, +, -, @, a tab
    /// or a carriage return, numbers left out. Tables are written in UTF-8. Without it CSV is exact
    #[arg(long)]
    pub spreadsheet: bool,
}

/// Lines of CSV, by RFC 4180.
pub struct CsvLines<'o> {
    writer: csv::Writer<&'o mut Output>,
    spreadsheet: bool,
    is_terminal: bool,
}

impl<'o> CsvLines<'o> {
    pub fn new(output: &'o mut Output, spreadsheet: bool) -> CsvLines<'o> {
        let is_terminal = output.is_terminal();
        let writer = csv::WriterBuilder::new().terminator(csv::Terminator::CRLF).flexible(true).from_writer(output);
        CsvLines { writer, spreadsheet, is_terminal }
    }

    /// A line. On a terminal, what could move something is shown by its number.
    pub fn line<'f>(&mut self, fields: impl IntoIterator<Item = Cow<'f, [u8]>>) -> Result<(), Error> {
        let write = || {
            for field in fields {
                let field = if self.spreadsheet { without_formula(field) } else { field };
                let field = if self.is_terminal { Shown::bytes(&field).to_string().into_bytes().into() } else { field };
                self.writer.write_field(&field)?;
            }
            self.writer.write_record(None::<&[u8]>)
        };
        write().map_err(|error: csv::Error| Error::Output(error.into()))
    }

    /// Has all lines in the output.
    pub fn end(mut self) -> Result<(), Error> {
        self.writer.flush().map_err(Error::Output)
    }
}

/// A number or a word, as a field.
pub fn field<'f>(value: impl ToString) -> Cow<'f, [u8]> {
    Cow::Owned(value.to_string().into_bytes())
}

/// A field as it is, or with ' in front where a spreadsheet would run it.
fn without_formula(field: Cow<[u8]>) -> Cow<[u8]> {
    let is_number = |text: &[u8]| !text.is_empty() && text.iter().all(u8::is_ascii_digit);
    match &*field {
        [b'-', digits @ ..] if is_number(digits) => field,
        [b'=' | b'+' | b'-' | b'@' | b'\t' | b'\r', ..] => [b"'", &*field].concat().into(),
        _ => field,
    }
}

/// By this a spreadsheet sees that text is UTF-8, and not in an encoding of its own country.
const MARK: &str = "\u{FEFF}";

/// CSV that is made already, for spreadsheets: with fields that none runs, and in UTF-8, which has a mark in front where it
/// is more than ASCII.
pub fn for_spreadsheets(text: &[u8]) -> Result<Vec<u8>, Error> {
    let wrong = |error: csv::Error| Error::System(error.to_string());
    let mut reader = csv::ReaderBuilder::new().has_headers(false).flexible(true).from_reader(text);
    let mark = if text.is_ascii() { "" } else { MARK };
    let mut writer = csv::WriterBuilder::new()
        .terminator(csv::Terminator::CRLF)
        .flexible(true)
        .from_writer(mark.as_bytes().to_vec());
    for record in reader.byte_records() {
        let record = record.map_err(wrong)?;
        for field in &record {
            let field = if field.is_ascii() { field.into() } else { Text(field).to_string().into_bytes().into() };
            writer.write_field(without_formula(field)).map_err(wrong)?;
        }
        writer.write_record(None::<&[u8]>).map_err(wrong)?;
    }
    writer.into_inner().map_err(|error| Error::System(error.to_string()))
}

/// Whether CSV that is made already can go to a terminal: it holds nothing that moves something there.
pub fn is_plain_text(text: &[u8]) -> bool {
    let may_be_shown = |character| is_plain(character) || matches!(character, '\r' | '\n');
    std::str::from_utf8(text).is_ok_and(|text| text.strip_prefix(MARK).unwrap_or(text).chars().all(may_be_shown))
}

#[cfg(test)]
mod tests {
    use super::{for_spreadsheets, is_plain_text, without_formula};

    #[test]
    fn formulas_are_texts() {
        let safe = |field: &'static [u8]| without_formula(field.into()).into_owned();
        for field in [&b"=1+1"[..], b"+1", b"-1+2", b"@x", b"\tx", b"\rx", b"-"] {
            assert_eq!(safe(field), [b"'", field].concat());
        }
        for field in [&b""[..], b"1", b"-12", b"a=1", b" =1"] {
            assert_eq!(safe(field), field);
        }
        assert_eq!(for_spreadsheets(b"a,\"=x,\"\"y\"\r\n-5,b\r\n").unwrap(), b"a,\"'=x,\"\"y\"\r\n-5,b\r\n");
    }

    #[test]
    fn spreadsheets_get_utf8() {
        let text = |bytes: &[u8]| String::from_utf8(for_spreadsheets(bytes).unwrap()).unwrap();
        assert_eq!(text(b"name\r\n\x83\x81\x83C\x83\x93\r\n"), "\u{FEFF}name\r\nメイン\r\n", "Shift-JIS");
        assert_eq!(text("=é,b\r\n".as_bytes()), "\u{FEFF}'=é,b\r\n");
        assert_eq!(text(b"a\xFF,b\r\n"), "\u{FEFF}a\u{FFFD},b\r\n", "neither");
        assert!(is_plain_text(text("é\r\n".as_bytes()).as_bytes()));
    }

    #[test]
    fn what_a_terminal_may_see() {
        assert!(is_plain_text("a,é\r\n".as_bytes()));
        assert!(!is_plain_text(b"\x1b[2J"));
        assert!(!is_plain_text(b"\xff"));
    }
}
