//! `usm statement`: what tenants owe for the copies of films.

mod copies;

use std::borrow::Cow;
use std::collections::BTreeMap;
use std::path::{Path, PathBuf};
use std::sync::{Mutex, MutexGuard, PoisonError};

use clap::{Args, ValueHint};
use serde::Serialize;
use usm::{Reading, Share, Tenant};

use self::copies::Copies;
use crate::options::tenants;
use crate::output::csv::{CsvLines, SpreadsheetOption, field};
use crate::output::json::{About, Kind};
use crate::output::text;
use crate::output::{Error, Output, Status, print_to, report_error};
use crate::run::sources::Films;
use crate::run::workers::{self, Film, Task, Turn};
use crate::sharing::shown::{self, Shown};

/// Say what tenants owe for the copies of films
///
/// Tenants whose keys give the same streams for a film are a group and have one copy of it. Its bytes, those of both
/// streams, are divided evenly within the group; a remainder goes one byte each to the lowest tenants. A line gives a
/// tenant, the lowest tenant of its group, and its share; after all films come the totals by tenant. Films are not
/// compared with each other: two files that hold the same film are two copies.
///
/// --why says of each copy why its tenants share it: they have one key, their keys differ only in digits that never
/// count, or only where this film shows nothing. Of a second copy of a film it says which digits tell it from the first,
/// and the first byte at which the two differ: its stream, its place there, and the chunk that it stands in. No digit of a
/// key is shown, only where keys differ.
///
/// TENANTS is a CSV file, or - for standard input, with a line for each of up to 16 tenants: its number, which is decimal,
/// and its key, in hex, with a comma or a semicolon between them. A first line `tenant,key` may stand above them.
#[derive(Args)]
pub struct Statement {
    /// The tenants, a CSV file
    #[arg(value_name = "TENANTS", value_hint = ValueHint::FilePath)]
    tenants: PathBuf,
    #[command(flatten)]
    films: Films,
    /// Write CSV: a line for each share, with its film in front, and one for each film that fails, with the error
    #[arg(long, conflicts_with = "json")]
    csv: bool,
    /// With --csv, write the totals by tenant in place of the shares
    #[arg(long, requires = "csv")]
    totals: bool,
    /// Say why tenants share a copy, and where the copies of a film part
    #[arg(long, conflicts_with = "totals")]
    why: bool,
    #[command(flatten)]
    spreadsheet: SpreadsheetOption,
}

impl Statement {
    pub fn run(self) -> Status {
        let begin = || {
            if self.tenants.as_os_str() == "-" && self.films.files.iter().any(|file| file.as_os_str() == "-") {
                return Err(Error::System("standard input can't be the tenants and a film".to_string()));
            }
            Ok((tenants::read(&self.tenants)?, self.films.sources()?))
        };
        match begin() {
            Ok((tenants, sources)) => {
                let run = Run { options: &self, tenants, totals: Mutex::default() };
                workers::run(&run, &sources, &self.films.options)
            }
            Err(error) => report_error(error),
        }
    }
}

struct Run<'o> {
    options: &'o Statement,
    tenants: Vec<Tenant>,
    totals: Mutex<Totals>,
}

/// The films that were done, those that were not, and what each tenant owes.
#[derive(Default)]
struct Totals {
    films: usize,
    failed: usize,
    bytes: BTreeMap<u64, u64>,
}

impl Task for Run<'_> {
    fn begin(&self, output: &mut Output) -> Result<(), Error> {
        if !self.options.csv {
            return Ok(());
        }
        let mut csv = CsvLines::new(output, false);
        if self.options.totals {
            csv.line(["tenant", "bytes"].map(field))?;
        } else {
            let more = if self.options.why { copies::COLUMNS.as_slice() } else { &[] };
            csv.line(COLUMNS.iter().chain(more).map(field))?;
        }
        csv.end()
    }

    fn film<'a>(&'a self, film: Film<'a, '_>, turn: &Turn<'a, '_>) -> Result<(), Error> {
        let Film { label, input, meter, .. } = film;
        let mut reader = input.reader(Reading::default(), meter)?;
        let Shown { bits, bytes } = shown::of(&mut reader)?;
        let shares = usm::statement_by(bits, bytes, &self.tenants)?;
        let copies = if self.options.why { Some(Copies::of(&mut reader, bits, &self.tenants, &shares)?) } else { None };
        reader.get_ref().check_end()?;
        let mut printer = turn.take();
        self.totals().add(&shares);
        if self.options.films.options.json {
            let lines = shares.iter().map(Line::of).collect();
            let why = copies.as_ref().map(Copies::object);
            return printer.object(&Object { about: About::new("shares", label), shares: lines, why });
        }
        if self.options.csv {
            let copies = copies.as_ref();
            return if self.options.totals { Ok(()) } else { self.print_lines(label, &shares, copies, &mut printer) };
        }
        print_shares(label, &shares, &mut printer)?;
        copies.map_or(Ok(()), |copies| copies.print(&mut printer))
    }

    fn failed(&self, label: &Path, error: &Error, output: &mut Output) -> Result<(), Error> {
        self.totals().failed += 1;
        if !self.options.csv || self.options.totals {
            return Ok(());
        }
        let mut csv = CsvLines::new(output, self.options.spreadsheet.spreadsheet);
        let why = match error {
            Error::Refused(refusal) => refusal.to_string(),
            Error::Declined(what) | Error::System(what) => what.clone(),
            Error::Output(_) => String::new(),
        };
        let more = if self.options.why { copies::COLUMNS.len() } else { 0 };
        let line = [file_field(label), field(""), field(""), field(""), field(why)];
        csv.line(line.into_iter().chain(std::iter::repeat_n(field(""), more)))?;
        csv.end()
    }

    fn end(&self, output: &mut Output) -> Result<(), Error> {
        let totals = self.totals();
        if self.options.films.options.json {
            return output.object(&totals.object());
        }
        if !self.options.csv {
            return totals.print(output);
        }
        if !self.options.totals {
            return Ok(());
        }
        let mut csv = CsvLines::new(output, false);
        for (tenant, bytes) in &totals.bytes {
            csv.line([field(tenant), field(bytes)])?;
        }
        csv.end()
    }
}

impl Run<'_> {
    fn totals(&self) -> MutexGuard<'_, Totals> {
        self.totals.lock().unwrap_or_else(PoisonError::into_inner)
    }

    fn print_lines(
        &self,
        label: &Path,
        shares: &[Share],
        copies: Option<&Copies>,
        output: &mut Output,
    ) -> Result<(), Error> {
        let mut csv = CsvLines::new(output, self.options.spreadsheet.spreadsheet);
        for share in shares {
            let line = [file_field(label), field(share.tenant), field(share.group), field(share.bytes), field("")];
            let why = copies.map_or(Vec::new(), |copies| copies.fields(share.group));
            csv.line(line.into_iter().chain(why))?;
        }
        csv.end()
    }
}

const COLUMNS: [&str; 5] = ["file", "tenant", "group", "bytes", "error"];

fn file_field(label: &Path) -> Cow<'_, [u8]> {
    label.as_os_str().as_encoded_bytes().into()
}

fn print_shares(label: &Path, shares: &[Share], output: &mut Output) -> Result<(), Error> {
    output.gap()?;
    print_to!(output, "{}\n{:>20}  {:>20}  {:>12}\n", text::Shown::path(label), "tenant", "group", "bytes");
    for Share { tenant, group, bytes, .. } in shares {
        print_to!(output, "{tenant:>20}  {group:>20}  {bytes:>12}\n");
    }
    Ok(())
}

impl Totals {
    fn add(&mut self, shares: &[Share]) {
        self.films += 1;
        for share in shares {
            *self.bytes.entry(share.tenant).or_default() += share.bytes;
        }
    }

    fn print(&self, output: &mut Output) -> Result<(), Error> {
        output.gap()?;
        let films = if self.films == 1 { "1 film".to_string() } else { format!("{} films", self.films) };
        let failed = match self.failed {
            0 => String::new(),
            failed => format!(", {failed} not done: this statement is incomplete"),
        };
        print_to!(output, "total of {films}{failed}\n");
        if self.films > 0 {
            print_to!(output, "{:>20}  {:>20}  {:>12}\n", "tenant", "", "bytes");
        }
        for (tenant, bytes) in &self.bytes {
            print_to!(output, "{tenant:>20}  {:>20}  {bytes:>12}\n", "");
        }
        Ok(())
    }

    fn object(&self) -> TotalsObject {
        let total = |(tenant, bytes): (&u64, &u64)| Total { tenant: tenant.to_string(), bytes: *bytes };
        TotalsObject {
            kind: Kind::new("totals"),
            films: self.films,
            failed: self.failed,
            totals: self.bytes.iter().map(total).collect(),
        }
    }
}

#[derive(Serialize)]
struct Object<'a> {
    #[serde(flatten)]
    about: About<'a>,
    shares: Vec<Line>,
    #[serde(flatten)]
    why: Option<copies::Object>,
}

#[derive(Serialize)]
struct Line {
    tenant: String,
    group: String,
    bytes: u64,
}

impl Line {
    fn of(share: &Share) -> Line {
        Line { tenant: share.tenant.to_string(), group: share.group.to_string(), bytes: share.bytes }
    }
}

#[derive(Serialize)]
struct TotalsObject {
    #[serde(flatten)]
    kind: Kind,
    films: usize,
    failed: usize,
    totals: Vec<Total>,
}

#[derive(Serialize)]
struct Total {
    tenant: String,
    bytes: u64,
}
