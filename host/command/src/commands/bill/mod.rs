//! `usm bill`: which copies there are of a house's films, who shares each, and why.

mod books;
mod copies;
mod date;
mod films;
mod holdings;
mod json;
mod learn;
mod ledger;
mod lock;
mod page;
mod reading;
mod streams;
mod table;
mod text;

use std::fs;
use std::io::Write;
use std::path::PathBuf;

use clap::Args;
use indicatif::ProgressBar;

use crate::files::identity::FileId;
use crate::files::replaced;
use crate::options::jobs::JobsOption;
use crate::output::numbers::{counted, grouped};
use crate::output::text::Shown;
use crate::output::{Error, Output, Status, report, report_error};
use books::{Books, Summary, Ways};
use holdings::Holdings;
use learn::learn;
use ledger::Ledger;
use page::Reader;

/// Say which copies there are of a house's films, who shares each, and why
///
/// Two holdings share a copy exactly when their unpacked streams, all audio taken, agree byte for byte, whichever films
/// they come from. A copy's bytes, those of both streams, are divided evenly among its tenants; a remainder goes one byte
/// each to the lowest tenants. A tenant that holds a copy twice bears one share of it.
///
/// HOLDINGS is a CSV file with a heading that names the columns `tenant`, `key` and `film`, in any order and case, with
/// commas or semicolons. Each line says: this tenant, a decimal number, holds this film under this key, in hex. An empty
/// key stands for the streams as they are stored. Films are paths that start from the folder of HOLDINGS. The columns
/// `name` and `title` name the tenant and the film; others are kept for --json. Where a line is wrong, all that are wrong
/// are reported and no film is read.
///
/// A film that is refused, missing or unreadable is listed first with its holdings, the bill is incomplete, and the
/// status is 1.
#[derive(Args)]
pub struct Bill {
    /// Who holds which film under which key, a CSV file, or - for standard input
    #[arg(value_name = "HOLDINGS")]
    holdings: PathBuf,
    #[command(flatten)]
    jobs: JobsOption,
    /// Write CSV: a line for each tenant of each copy, by rising tenant, then by the digests
    #[arg(long, conflicts_with = "json")]
    csv: bool,
    /// Write JSON objects, each on a line: the bill with its films, keys and reasons
    #[arg(long)]
    json: bool,
    /// Write the sums by tenant alone
    #[arg(long)]
    totals: bool,
    /// Keep what is learnt of films in this SQLite file, so that the next run reads only what is new or changed
    #[arg(long, value_name = "FILE")]
    ledger: Option<PathBuf>,
    /// Write the bill as a page to this file, in the place of one that is there. Standard output then has only what
    /// --csv, --json or --totals asks for
    #[arg(long, value_name = "FILE")]
    html: Option<PathBuf>,
    /// Make the page for this tenant: its own lines, and of other keys only where they agree with its own
    #[arg(long, value_name = "TENANT", requires = "html")]
    tenant: Option<u64>,
}

impl Bill {
    pub fn run(self) -> Status {
        self.bill().unwrap_or_else(report_error)
    }

    fn bill(&self) -> Result<Status, Error> {
        let books = Books::new()?;
        let ledger = self.ledger.as_deref().map(Ledger::open).transpose()?;
        let mut holdings = Holdings::open(&self.holdings)?;
        let reading = books.together(|| holdings.read(|holding| books.add(holding)))?;
        if reading.wrong > 0 {
            let lines = counted(reading.wrong, "wrong line");
            return Ok(report(Status::Failed, &format!("{}: {lines}; no film was read", Shown::path(&self.holdings))));
        }
        self.note(&reading);
        books.together(|| books.find_films(|film| films::identity(&holdings.file(film))))?;
        let learnt = books.together(|| learn(&books, &holdings, ledger.as_ref(), self.jobs.jobs()))?;
        if let Some(ledger) = &self.ledger {
            let [known, read] = [learnt.known, learnt.read].map(grouped);
            report(
                Status::Success,
                &format!("note: {}: {known} films were known, {read} were read", Shown::path(ledger)),
            );
        }
        self.write_forms(&books)?;
        Ok(if books.unbilled_films()? > 0 { Status::Refused } else { Status::Success })
    }

    /// Computes the bill and writes the forms that are asked for. CSV alone needs less of it than the others.
    fn write_forms(&self, books: &Books) -> Result<(), Error> {
        let is_lines_alone = self.csv && !self.totals && self.html.is_none();
        books.bill(if is_lines_alone { Ways::Now } else { Ways::BeforeAndNow })?;
        if self.csv && self.html.is_none() {
            return self.write_csv(books);
        }
        books.number_copies()?;
        let summary = books.summary()?;
        self.write_page(books, &summary)?;
        if self.csv {
            self.write_csv(books)
        } else if self.html.is_none() || self.json || self.totals {
            self.write_objects_or_text(books, &summary)
        } else {
            Ok(())
        }
    }

    /// Keys that may have been meant as decimal numbers.
    fn note(&self, reading: &holdings::Reading) {
        if reading.decimal > 0 {
            let keys = counted(reading.decimal, "key");
            report(
                Status::Success,
                &format!(
                    "note: {}: {keys} of decimal digits alone, the first in line {}; all keys are read as hex",
                    Shown::path(&self.holdings),
                    reading.first_decimal
                ),
            );
        }
    }

    fn write_page(&self, books: &Books, summary: &Summary) -> Result<(), Error> {
        let Some(path) = &self.html else { return Ok(()) };
        let reader = match self.tenant {
            None => Reader::House,
            Some(tenant) if books.has_tenant(tenant)? => Reader::Tenant(tenant),
            Some(tenant) => return Err(Error::with(&self.holdings, format!("no line is of tenant {tenant}"))),
        };
        let is_kept = |id: FileId| self.is_read(books, id).then(|| "this bill is made of it".to_string());
        replaced::write(path, &is_kept, |file| page::write(books, summary, reader, file))
    }

    /// Whether a file is one that the bill is made of: the holdings, the ledger or a film.
    fn is_read(&self, books: &Books, id: FileId) -> bool {
        let named = [Some(&self.holdings), self.ledger.as_ref()];
        let mut files = named.into_iter().flatten().filter_map(|path| fs::metadata(path).ok());
        files.any(|file| FileId::of(&file) == id) || books.has_file(id).unwrap_or(true)
    }

    fn write_csv(&self, books: &Books) -> Result<(), Error> {
        let mut output = Output::new(ProgressBar::hidden()).map_err(Error::Output)?;
        warn(books)?;
        if self.totals {
            table::write_totals(books, &mut output)?;
        } else {
            table::write_lines(books, &mut output)?;
        }
        output.flush().map_err(Error::Output)
    }

    fn write_objects_or_text(&self, books: &Books, summary: &Summary) -> Result<(), Error> {
        let mut output = Output::new(ProgressBar::hidden()).map_err(Error::Output)?;
        match (self.json, self.totals) {
            (true, true) => json::write_totals(books, summary, &mut output)?,
            (true, false) => json::write(books, summary, &mut output)?,
            (false, true) => {
                text::write_unbilled(books, summary, &mut output)?;
                text::write_totals(books, &mut output)?;
            }
            (false, false) => text::write(books, summary, &mut output)?,
        }
        output.flush().map_err(Error::Output)
    }
}

/// What is not billed has no place in the CSV's columns, so it goes to standard error.
fn warn(books: &Books) -> Result<(), Error> {
    let films = books.unbilled_films()?;
    if films == 0 {
        return Ok(());
    }
    books.unbilled(None, |unbilled| {
        let (path, line, tenant) = (Shown::path(&unbilled.path), unbilled.line, unbilled.tenant);
        report(Status::Refused, &format!("line {line}: tenant {tenant}: {path}: {}", unbilled.why));
        Ok(())
    })?;
    let films = counted(films, "film");
    report(Status::Refused, &format!("this bill is incomplete: {films} could not be billed"));
    Ok(())
}
