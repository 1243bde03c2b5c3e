//! `usm csv`: the tables of films as files for spreadsheets.

use std::path::{Path, PathBuf};

use clap::Args;
use serde::Serialize;

use crate::files::names::stem;
use crate::files::targets::{Claim, OutputOptions, Targets};
use crate::options::limit::{LimitOption, place};
use crate::options::reading::TableOptions;
use crate::output::csv::{SpreadsheetOption, for_spreadsheets};
use crate::output::json::{About, AsHex, AsText};
use crate::output::text::Shown;
use crate::output::{Error, Output, Status, print_to, report_error};
use crate::run::input::Buffers;
use crate::run::sources::Films;
use crate::run::tables::{opening, text_of};
use crate::run::workers::{self, Film, Task, Turn};

/// Write the tables of films' headers as CSV files
///
/// Each table that has columns becomes a file, by RFC 4180: names, then rows; numbers in decimal, data and floats in hex,
/// strings as they are. A file has the film's name, its block's letters and its place: song.crid-32.csv. It lies beside
/// the film, or in DIR. All files of a film appear, or none does.
///
/// A spreadsheet may run a field that begins with =, +, - or @ as a formula: import all columns as text, or give
/// --spreadsheet.
#[derive(Args)]
pub struct Csv {
    #[command(flatten)]
    films: Films,
    /// The table at this place alone, a number of bytes (0x in front: in hex), of any file
    #[arg(long, value_name = "PLACE", value_parser = place)]
    at: Option<usize>,
    #[command(flatten)]
    tables: TableOptions,
    #[command(flatten)]
    limit: LimitOption,
    #[command(flatten)]
    spreadsheet: SpreadsheetOption,
    #[command(flatten)]
    output: OutputOptions,
}

impl Csv {
    pub fn run(self) -> Status {
        let sources = match self.films.sources() {
            Ok(sources) => sources,
            Err(error) => return report_error(error),
        };
        match Targets::new(&self.output, &sources) {
            Ok(targets) => workers::run(&Run { options: &self, targets }, &sources, &self.films.options),
            Err(error) => report_error(error),
        }
    }
}

struct Run<'o> {
    options: &'o Csv,
    targets: Targets,
}

impl Task for Run<'_> {
    const STEPS: u64 = 2;

    fn film<'a>(&'a self, film: Film<'a, '_>, turn: &Turn<'a, '_>) -> Result<(), Error> {
        let Film { label, input, buffers, meter } = film;
        let Buffers { film, made: text } = buffers;
        let tables = match self.options.at {
            Some(place) => {
                input.read_all(film, meter)?;
                vec![(format!("{place}"), place)]
            }
            None => {
                let opening = opening(input.reader(self.options.tables.reading(), meter)?)?;
                *film = opening.bytes;
                opening.tables.iter().map(|table| (name(table), table.place)).collect()
            }
        };
        let bytes = &film[..];
        let tables = self.with_columns(tables, bytes)?;
        let files: Vec<PathBuf> =
            tables.iter().map(|(name, _)| self.targets.target(label, &format!("{}.{name}.csv", stem(label)))).collect();
        if turn.decide(|| self.targets.claim(label, &files))? == Claim::Skip {
            turn.finish_in_turn(move |output| self.print(label, &Vec::new(), true, output));
            return Ok(());
        }
        let mut limit = self.options.limit.limit();
        let (mut written, mut staged) = (Vec::new(), self.targets.staged());
        for (file, (_, place)) in files.into_iter().zip(tables) {
            text_of(bytes, place, self.options.tables.tables(), &mut limit, text)?;
            if self.options.spreadsheet.spreadsheet {
                *text = for_spreadsheets(text)?;
            }
            staged.write(file.clone(), text)?;
            written.push((file, text.len()));
        }
        self.targets.place(label, staged)?;
        turn.finish_in_turn(move |output| self.print(label, &written, false, output));
        Ok(())
    }
}

impl Run<'_> {
    /// Of tables, each by a name and its place, those that have columns.
    fn with_columns(&self, all: Vec<(String, usize)>, bytes: &[u8]) -> Result<Vec<(String, usize)>, Error> {
        let mut with_columns = Vec::new();
        for (name, place) in all {
            if usm::csv_size(bytes, place, self.options.tables.tables())? > 0 {
                with_columns.push((name, place));
            }
        }
        Ok(with_columns)
    }

    fn print(
        &self,
        label: &Path,
        files: &[(PathBuf, usize)],
        is_skipped: bool,
        output: &mut Output,
    ) -> Result<(), Error> {
        if self.options.films.options.json {
            let files = files.iter().map(|(path, bytes)| Written::of(path, *bytes)).collect();
            return output.object(&Object { about: About::new("csv", label), files });
        }
        if self.options.output.quiet {
            return Ok(());
        }
        output.gap()?;
        print_to!(output, "{}\n", Shown::path(label));
        for (path, size) in files {
            print_to!(output, "written  {size} bytes: {}\n", Shown::path(path));
        }
        match (is_skipped, files.is_empty()) {
            (true, _) => print_to!(output, "skipped: its files are there\n"),
            (false, true) => print_to!(output, "written  nothing: no table has a column\n"),
            (false, false) => {}
        }
        Ok(())
    }
}

/// The letters of a header table's block, without @, and its place.
fn name(table: &usm::HeaderTable) -> String {
    let letters = String::from_utf8_lossy(&table.letters).trim_start_matches('@').to_lowercase();
    format!("{letters}-{}", table.place)
}

#[derive(Serialize)]
struct Object<'a> {
    #[serde(flatten)]
    about: About<'a>,
    files: Vec<Written<'a>>,
}

#[derive(Serialize)]
struct Written<'a> {
    path: AsText<'a>,
    path_hex: AsHex<'a>,
    bytes: usize,
}

impl<'a> Written<'a> {
    fn of(path: &'a Path, bytes: usize) -> Written<'a> {
        let path = path.as_os_str().as_encoded_bytes();
        Written { path: AsText(path), path_hex: AsHex(path), bytes }
    }
}
