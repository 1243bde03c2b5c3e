//! `usm list`: the chunks of films.

use std::cell::RefCell;
use std::io::Write;
use std::path::Path;

use clap::Args;
use serde::ser::{Error as _, SerializeSeq};
use serde::{Serialize, Serializer};
use usm::{ChunkHead, Reader};

use crate::options::reading::ReadingOptions;
use crate::output::csv::{CsvLines, SpreadsheetOption, field};
use crate::output::json::{About, AsText};
use crate::output::text::Shown;
use crate::output::{Error, Status};
use crate::output::{Output, print_to, report_error};
use crate::run::input::Input;
use crate::run::progress::Meter;
use crate::run::sources::Films;
use crate::run::workers::{self, Film, Task, Turn};

/// List the chunks of films
///
/// For each chunk its start in the film, its kind, data type and channel, the length of its payload, which is 0 where it is
/// skipped, and the letters that it begins with: those of an end chunk say which stream it ends.
#[derive(Args)]
pub struct List {
    #[command(flatten)]
    films: Films,
    /// Write CSV: a line for each chunk, with its film in front
    #[arg(long, conflicts_with = "json")]
    csv: bool,
    #[command(flatten)]
    spreadsheet: SpreadsheetOption,
    #[command(flatten)]
    reading: ReadingOptions,
}

impl List {
    pub fn run(self) -> Status {
        match self.films.sources() {
            Ok(sources) => workers::run(&self, &sources, &self.films.options),
            Err(error) => report_error(error),
        }
    }
}

impl Task for List {
    fn begin(&self, output: &mut Output) -> Result<(), Error> {
        if !self.csv {
            return Ok(());
        }
        let mut csv = CsvLines::new(output, false);
        csv.line(["file", "start", "kind", "type", "channel", "length", "letters"].map(field))?;
        csv.end()
    }

    fn film<'a>(&'a self, film: Film<'a, '_>, turn: &Turn<'a, '_>) -> Result<(), Error> {
        let Film { label, input, meter, .. } = film;
        let mut reader = input.reader(self.reading.reading(), meter)?;
        let chunks = Chunks::of(&mut reader, meter)?;
        let mut printer = turn.take();
        if self.films.options.json {
            printer.object(&Object { about: About::new("chunks", label), chunks: InOrder(RefCell::new(chunks)) })
        } else if self.csv {
            print_lines(label, chunks, CsvLines::new(&mut printer, self.spreadsheet.spreadsheet))
        } else {
            print_chunks(label, chunks, &mut printer)
        }
    }
}

/// The heads of so many chunks are held, some 5 MiB.
const HELD: usize = 1 << 17;

/// The chunks of a film, all of which were looked at: what is printed can't be taken back. Those that are held, or for which
/// there is memory, are not looked at again.
struct Chunks<'r, 'i> {
    count: usize,
    held: std::vec::IntoIter<ChunkHead>,
    /// Stands after those that are held.
    reader: &'r mut Reader<&'i mut Input>,
}

impl<'r, 'i> Chunks<'r, 'i> {
    fn of(reader: &'r mut Reader<&'i mut Input>, meter: &Meter) -> Result<Chunks<'r, 'i>, Error> {
        let mut held: Vec<ChunkHead> = Vec::new();
        let (mut count, mut other) = (0, None);
        while let Some(chunk) = reader.next_chunk()? {
            count += 1;
            meter.reach(reader.place());
            if other.is_none() && held.len() < HELD && held.try_reserve(1).is_ok() {
                held.push(chunk);
            } else {
                other.get_or_insert(chunk);
            }
        }
        reader.get_ref().check_end()?;
        if let Some(other) = other {
            reader.back_to(&other)?;
        }
        Ok(Chunks { count, held: held.into_iter(), reader })
    }

    fn next(&mut self) -> Result<Option<ChunkHead>, usm::Error> {
        match self.held.next() {
            None => self.reader.next_chunk(),
            held => Ok(held),
        }
    }
}

fn print_chunks(label: &Path, mut chunks: Chunks, output: &mut Output) -> Result<(), Error> {
    output.gap()?;
    let wide = chunks.reader.total().to_string().len().max("length".len());
    let count = chunks.count;
    print_to!(output, "{}: {count} {}\n", Shown::path(label), if count == 1 { "chunk" } else { "chunks" });
    if count > 0 {
        print_to!(output, "{:>wide$}  kind   type  channel  {:>wide$}  letters\n", "start", "length");
    }
    let mut line = Vec::new();
    while let Some(ChunkHead { start, kind, data_type, channel, length, letters, .. }) = chunks.next()? {
        line.clear();
        put_number(&mut line, start, wide);
        write!(line, "  {kind:<5}").map_err(Error::Output)?;
        put_number(&mut line, data_type.into(), 6);
        put_number(&mut line, channel.into(), 9);
        put_number(&mut line, length, wide + 2);
        put_letters(&mut line, letters).map_err(Error::Output)?;
        line.push(b'\n');
        output.write_all(&line).map_err(Error::Output)?;
    }
    Ok(())
}

/// A number at the right of its column. To format it, as the rest of a line, would take as long as to look at a chunk.
fn put_number(line: &mut Vec<u8>, number: usize, wide: usize) {
    let end = line.len() + wide.max(number.checked_ilog10().map_or(1, |digits| digits as usize + 1));
    line.resize(end, b' ');
    let mut rest = number;
    for digit in line.iter_mut().rev() {
        *digit = b'0' + (rest % 10) as u8;
        rest /= 10;
        if rest == 0 {
            break;
        }
    }
}

/// The letters of a chunk, which may be any bytes. Those that are letters need not be formatted either.
fn put_letters(line: &mut Vec<u8>, letters: [u8; 4]) -> std::io::Result<()> {
    line.extend_from_slice(b"  ");
    if letters.iter().all(u8::is_ascii_graphic) {
        line.extend_from_slice(&letters);
        return Ok(());
    }
    write!(line, "{}", Shown::bytes(&letters))
}

fn print_lines(label: &Path, mut chunks: Chunks, mut csv: CsvLines) -> Result<(), Error> {
    let file = label.as_os_str().as_encoded_bytes();
    while let Some(chunk) = chunks.next()? {
        let numbers =
            [field(chunk.start), field(chunk.kind), field(chunk.data_type), field(chunk.channel), field(chunk.length)];
        let letters = chunk.letters.to_vec().into();
        csv.line(std::iter::once(file.into()).chain(numbers).chain([letters]))?;
    }
    csv.end()
}

#[derive(Serialize)]
struct Object<'a, 'r, 'i> {
    #[serde(flatten)]
    about: About<'a>,
    chunks: InOrder<'r, 'i>,
}

/// Chunks, written one after the other.
struct InOrder<'r, 'i>(RefCell<Chunks<'r, 'i>>);

impl Serialize for InOrder<'_, '_> {
    fn serialize<S: Serializer>(&self, serializer: S) -> Result<S::Ok, S::Error> {
        let mut chunks = self.0.borrow_mut();
        let mut sequence = serializer.serialize_seq(None)?;
        while let Some(chunk) = chunks.next().map_err(S::Error::custom)? {
            sequence.serialize_element(&Record {
                start: chunk.start,
                kind: chunk.kind.to_string(),
                data_type: chunk.data_type,
                channel: chunk.channel,
                length: chunk.length,
                letters: AsText(&chunk.letters),
            })?;
        }
        sequence.end()
    }
}

#[derive(Serialize)]
struct Record<'a> {
    start: usize,
    kind: String,
    #[serde(rename = "type")]
    data_type: u8,
    channel: u8,
    length: usize,
    letters: AsText<'a>,
}
