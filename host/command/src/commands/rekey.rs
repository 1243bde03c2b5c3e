//! `usm rekey`: films under another key.

use std::fs::File;
use std::io::{BufWriter, Write};
use std::path::{Path, PathBuf};

use clap::{Args, ValueHint};
use usm::Reading;

use crate::files::targets::OutputOptions;
use crate::options::key;
use crate::options::reading::TableOptions;
use crate::output::{Error, Status, report_error};
use crate::run::digests;
use crate::run::input::Input;
use crate::run::progress::Meter;
use crate::run::rewrite::{self, NewFilm, Rewrite, Written};
use crate::run::sources::Films;
use crate::run::workers::Film;

/// Change the key of films
///
/// Payloads that are masked are unmasked under the one key and masked under the other; everything else of the film stays
/// as it is. Before the new film gets its name it is read again: its streams under the new key must be those of the other
/// film under the old key, by their sizes and SHA-256.
///
/// A film with a chunk whose header has another size than 0x18 is left alone: which of its bytes are payload depends on
/// how they are read.
///
/// The file lies beside the film and ends in .rekeyed.usm, or has the film's name in DIR.
#[derive(Args)]
pub struct Rekey {
    #[command(flatten)]
    films: Films,
    /// The key that the films have, 1 to 16 hex digits
    #[arg(long, value_name = "KEY", required_unless_present = "from_file", conflicts_with = "from_file")]
    from: Option<String>,
    /// Read that key from a file, so that it stands on no command line
    #[arg(long, value_name = "FILE", value_hint = ValueHint::FilePath)]
    from_file: Option<PathBuf>,
    /// The key that they get
    #[arg(long, value_name = "KEY", required_unless_present = "to_file", conflicts_with = "to_file")]
    to: Option<String>,
    /// Read that key from a file
    #[arg(long, value_name = "FILE", value_hint = ValueHint::FilePath)]
    to_file: Option<PathBuf>,
    #[command(flatten)]
    tables: TableOptions,
    #[command(flatten)]
    output: OutputOptions,
}

impl Rekey {
    pub fn run(self) -> Status {
        match self.rekeying() {
            Ok(Some(rekeying)) => rewrite::run(rekeying, &self.films, &self.output),
            Ok(None) => report_error(Error::System("two keys are needed, --from and --to".to_string())),
            Err(error) => report_error(error),
        }
    }

    fn rekeying(&self) -> Result<Option<Rekeying>, Error> {
        let from = key::given("--from", self.from.as_deref(), self.from_file.as_deref())?;
        let to = key::given("--to", self.to.as_deref(), self.to_file.as_deref())?;
        let reading = Reading::default().with_tables(self.tables.tables());
        Ok(from.zip(to).map(|(from, to)| Rekeying { from, to, reading }))
    }
}

struct Rekeying {
    from: u64,
    to: u64,
    reading: Reading,
}

/// Pieces that are shorter are gathered before they are written.
const GATHERED: usize = 64 << 10;

impl Rewrite for Rekeying {
    const SUFFIX: &'static str = "rekeyed";

    fn write(&self, film: Film, new: NewFilm) -> Result<Option<Written>, Error> {
        let Film { input, meter, .. } = film;
        let target = new.target();
        let file = new.create()?;
        let size = self.rekey(input, file, target, meter)?;
        self.check(input, file, size, meter).map_err(|error| error.of(target))?;
        Ok(Some(Written { size, dropped: None }))
    }
}

impl Rekeying {
    /// Writes the film under the new key, and gives its size.
    fn rekey(&self, input: &mut Input, file: &mut File, target: &Path, meter: &Meter) -> Result<usize, Error> {
        let mut reader = input.reader(self.reading, meter)?;
        let mut rekeying = reader.rekey(self.from, self.to)?;
        let mut writer = BufWriter::with_capacity(GATHERED, file);
        let mut size = 0;
        while let Some(piece) = rekeying.next_piece()? {
            writer.write_all(piece).map_err(|error| Error::with(target, error))?;
            size += piece.len();
            meter.reach(size);
        }
        writer.flush().map_err(|error| Error::with(target, error))?;
        reader.get_ref().check_end()?;
        Ok(size)
    }

    /// The streams of the new film under the new key are those of the other under the old one.
    fn check(&self, input: &mut Input, file: &File, size: usize, meter: &Meter) -> Result<(), Error> {
        let streams = |input: &mut Input, key: u64| {
            input.restart();
            let mut reader = input.reader(self.reading, meter)?;
            digests::of(&mut reader, Some(key), meter)
        };
        let before = streams(input, self.from)?;
        let after = streams(&mut Input::of(file, size as u64)?, self.to)?;
        if before == after {
            Ok(())
        } else {
            Err(Error::System("its streams are not those of the film: it was not written".to_string()))
        }
    }
}

#[cfg(test)]
mod tests {
    use std::fs::{self, File};
    use std::io::Write;

    use usm::Reading;

    use super::Rekeying;
    use crate::run::input::Input;
    use crate::run::progress::{Meter, Progress};

    /// What is written is held against the film: a byte that is changed on the way is an error.
    #[test]
    fn what_was_written_is_compared() {
        let path = std::env::temp_dir().join(format!("usm-rekey-{}", std::process::id()));
        let mut file = File::options().read(true).write(true).create(true).truncate(true).open(&path).unwrap();
        fs::remove_file(&path).unwrap();
        let film = films::large(b"film", 200_000);
        file.write_all(&film).unwrap();
        let progress = Progress::new(None);
        let meter = Meter::new(&progress, 1, 0);
        let check = |from: u64, to: u64, other: &[u8]| {
            let mut input = Input::Memory(std::io::Cursor::new(other.to_vec()));
            Rekeying { from, to, reading: Reading::default() }.check(&mut input, &file, film.len(), &meter)
        };
        assert!(check(1, 1, &film).is_ok());
        assert!(check(1, 2, &film).is_err());
        let mut other = film.clone();
        other[100_000] ^= 1;
        assert!(check(1, 1, &other).is_err());
    }
}
