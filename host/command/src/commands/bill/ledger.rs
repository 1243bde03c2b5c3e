//! The ledger: what was learnt of films in earlier runs, in an SQLite file. A film is known by its path, size, time and
//! inode, else by its digest; its streams by its digest and the class of a key.
//!
//! Every row has a seal, a checksum that shows damage which SQLite does not detect.

use std::fs;
use std::path::{Path, PathBuf};
use std::thread::sleep;
use std::time::Duration;

use rusqlite::types::{Value, ValueRef};
use rusqlite::{Connection, ErrorCode, OptionalExtension, Params, Row, params_from_iter};
use sha2::{Digest, Sha256};

use super::films::Found;
use crate::files::identity::{FileId, Identity};
use crate::output::{Error, Status, report};
use crate::run::digests::{Stream, Streams};
use crate::sharing::apart::Apart;
use crate::sharing::classes::Class;

/// "usml": it distinguishes a ledger from another program's database.
const APPLICATION: i64 = 0x7573_6D6C;

/// The version of the tables. A change that an older command would misread raises it.
const SCHEMA: i64 = 1;

const TABLES: &str = "
    CREATE TABLE film (path BLOB PRIMARY KEY, inode INTEGER, size INTEGER, mtime INTEGER, container BLOB,
        seal BLOB) WITHOUT ROWID;
    CREATE TABLE container (container BLOB PRIMARY KEY, bits INTEGER, refusal TEXT, seal BLOB) WITHOUT ROWID;
    CREATE TABLE streams (container BLOB, given INTEGER, class INTEGER, video_bytes INTEGER, audio_bytes INTEGER,
        video_sha256 BLOB, audio_sha256 BLOB, seal BLOB, PRIMARY KEY (container, given, class)) WITHOUT ROWID;
    CREATE TABLE apart (container BLOB, given INTEGER, class INTEGER, other_given INTEGER, other_class INTEGER,
        in_audio INTEGER, byte INTEGER, chunk INTEGER, seal BLOB,
        PRIMARY KEY (container, given, class, other_given, other_class)) WITHOUT ROWID;";

const NAMES: [&str; 4] = ["film", "container", "streams", "apart"];

/// The SHA-256 of a whole film.
pub type Container = [u8; 32];

pub struct Ledger {
    path: PathBuf,
    connection: Connection,
}

/// What a film is, whatever its keys.
#[derive(Clone, PartialEq, Eq, Debug)]
pub enum Kind {
    /// It is accepted, and shows these bits of a key.
    Shows(u64),
    /// It is refused, in these words.
    Refused(String),
}

impl Ledger {
    /// Opens a ledger, or creates one. A file that is not a ledger, or is newer or damaged, is refused and left unchanged.
    pub fn open(path: &Path) -> Result<Ledger, Error> {
        let connection = Connection::open(path).map_err(|error| error_of(path, &error))?;
        let ledger = Ledger { path: path.to_path_buf(), connection };
        ledger.check()?;
        Ok(ledger)
    }

    fn check(&self) -> Result<(), Error> {
        self.sql(self.connection.busy_handler(Some(wait)))?;
        self.begin()?;
        self.end(self.check_tables())
    }

    fn check_tables(&self) -> Result<(), Error> {
        let tables: i64 = self.number("SELECT COUNT(*) FROM sqlite_master")?;
        let application = self.number("PRAGMA application_id")?;
        let schema = self.number("PRAGMA user_version")?;
        if tables == 0 && application == 0 {
            return self
                .run(&format!("{TABLES} PRAGMA application_id = {APPLICATION}; PRAGMA user_version = {SCHEMA};"));
        }
        if application != APPLICATION {
            return Err(self.refused("it is not a ledger of this command; it was left unchanged"));
        }
        if schema > SCHEMA {
            let why = format!("its schema is {schema}, and this command knows {SCHEMA}; it was left unchanged");
            return Err(self.refused(&why));
        }
        let sound: String = self.sql(self.connection.query_row("PRAGMA quick_check(1)", [], |row| row.get(0)))?;
        if sound != "ok" || !self.has_its_tables()? {
            return Err(self.damaged());
        }
        NAMES.iter().try_for_each(|table| self.check_seals(table))
    }

    /// Whether the tables are declared exactly as in a new ledger. SQLite accepts any declaration: a column with a wrong name is
    /// noticed only when it is used, and two names that were exchanged never are.
    fn has_its_tables(&self) -> Result<bool, Error> {
        let new = self.sql(Connection::open_in_memory())?;
        self.sql(new.execute_batch(TABLES))?;
        for table in NAMES {
            if self.sql(text_of(&self.connection, table))? != self.sql(text_of(&new, table))? {
                return Ok(false);
            }
        }
        Ok(true)
    }

    fn check_seals(&self, table: &str) -> Result<(), Error> {
        let mut statement = self.sql(self.connection.prepare(&format!("SELECT * FROM {table}")))?;
        let seal_at = statement.column_count() - 1;
        let mut rows = self.sql(statement.query([]))?;
        while let Some(row) = self.sql(rows.next())? {
            let values = (0..seal_at).map(|at| row.get_ref(at)).collect::<Result<Vec<_>, _>>();
            let found = self.sql(row.get_ref(seal_at))?;
            if found != ValueRef::Blob(&seal(table, self.sql(values)?.into_iter())) {
                return Err(self.damaged());
            }
        }
        Ok(())
    }

    /// Waits for a run that writes. Until the end of the lookups the ledger does not change; other runs may look up films too.
    pub fn begin_lookups(&self) -> Result<(), Error> {
        self.run("BEGIN")
    }

    /// Waits for other runs on this ledger, and keeps them out until the end of this film.
    pub fn begin(&self) -> Result<(), Error> {
        self.run("BEGIN IMMEDIATE")
    }

    /// Ends what `begin` began: all that was learnt since is kept, or nothing.
    pub fn end<T>(&self, done: Result<T, Error>) -> Result<T, Error> {
        self.run(if done.is_ok() { "COMMIT" } else { "ROLLBACK" })?;
        done
    }

    /// The digest of a film that has not changed since it was read, and what it is.
    pub fn film(&self, path: &Path, identity: &Identity) -> Result<Option<(Container, Kind)>, Error> {
        let Identity { id: FileId { inode, .. }, size, mtime } = *identity;
        self.one(
            "SELECT bits, refusal, container FROM film JOIN container USING (container)
                WHERE path = ?1 AND inode = ?2 AND size = ?3 AND mtime = ?4",
            [path_value(path), number(inode), number(size), Value::Integer(mtime)],
            |row| Ok((row.get(2)?, kind_of(row)?)),
        )
    }

    pub fn kind(&self, container: &Container) -> Result<Option<Kind>, Error> {
        self.one("SELECT bits, refusal FROM container WHERE container = ?1", [blob(container)], kind_of)
    }

    /// What a class of keys gives, and where it parts from the first class.
    pub fn found(&self, container: &Container, first: Class, class: Class) -> Result<Option<Found>, Error> {
        let Some(streams) = self.streams(container, class)? else { return Ok(None) };
        if class == first {
            return Ok(Some(Found { class, streams, apart: None }));
        }
        let apart = self.apart(container, first, class)?;
        Ok(apart.map(|apart| Found { class, streams, apart }))
    }

    fn streams(&self, container: &Container, class: Class) -> Result<Option<Streams>, Error> {
        let [given, class] = stored(class);
        self.one(
            "SELECT video_bytes, video_sha256, audio_bytes, audio_sha256 FROM streams
                WHERE container = ?1 AND given = ?2 AND class = ?3",
            [blob(container), given, class],
            |row| {
                Ok(Streams {
                    video: Stream { bytes: row.get(0)?, sha256: row.get(1)? },
                    audio: Stream { bytes: row.get(2)?, sha256: row.get(3)? },
                })
            },
        )
    }

    fn apart(&self, container: &Container, one: Class, other: Class) -> Result<Option<Option<Apart>>, Error> {
        let [[given, class], [other_given, other_class]] = in_order(one, other).map(stored);
        self.one(
            "SELECT in_audio, byte, chunk FROM apart WHERE container = ?1 AND given = ?2 AND class = ?3
                AND other_given = ?4 AND other_class = ?5",
            [blob(container), given, class, other_given, other_class],
            |row| {
                let Some(is_audio) = row.get(0)? else { return Ok(None) };
                Ok(Some(Apart { is_audio, byte: row.get(1)?, chunk: row.get(2)? }))
            },
        )
    }

    /// Stores which film a file is, unless it changed so recently that its time may not show another change.
    pub fn keep_film(&self, path: &Path, identity: &Identity, container: &Container) -> Result<(), Error> {
        if identity.is_recent() {
            return Ok(());
        }
        let Identity { id: FileId { inode, .. }, size, mtime } = *identity;
        self.keep("film", [path_value(path), number(inode), number(size), Value::Integer(mtime), blob(container)])
    }

    pub fn keep_kind(&self, container: &Container, kind: &Kind) -> Result<(), Error> {
        let [bits, refusal] = match kind {
            Kind::Shows(bits) => [number(*bits), Value::Null],
            Kind::Refused(why) => [Value::Null, Value::Text(why.clone())],
        };
        self.keep("container", [blob(container), bits, refusal])
    }

    pub fn keep_found(&self, container: &Container, first: Class, found: &Found) -> Result<(), Error> {
        let Found { class, streams: Streams { video, audio }, apart } = found;
        let [given, stored_class] = stored(*class);
        let sizes = [number(video.bytes), number(audio.bytes)];
        let [video_bytes, audio_bytes] = sizes;
        let (video_sha256, audio_sha256) = (blob(&video.sha256), blob(&audio.sha256));
        self.keep(
            "streams",
            [blob(container), given, stored_class, video_bytes, audio_bytes, video_sha256, audio_sha256],
        )?;
        if *class == first { Ok(()) } else { self.keep_apart(container, first, *class, *apart) }
    }

    fn keep_apart(&self, container: &Container, one: Class, other: Class, apart: Option<Apart>) -> Result<(), Error> {
        let [[given, class], [other_given, other_class]] = in_order(one, other).map(stored);
        let [in_audio, byte, chunk] = match apart {
            Some(Apart { is_audio, byte, chunk }) => [number(is_audio.into()), number(byte), number(chunk)],
            None => [Value::Null, Value::Null, Value::Null],
        };
        self.keep("apart", [blob(container), given, class, other_given, other_class, in_audio, byte, chunk])
    }

    /// Stores a row with its seal, in place of one with the same key.
    fn keep<const N: usize>(&self, table: &str, values: [Value; N]) -> Result<(), Error> {
        let seal = Value::Blob(seal(table, values.iter().map(ValueRef::from)).to_vec());
        let marks = vec!["?"; N + 1].join(", ");
        let text = format!("INSERT OR REPLACE INTO {table} VALUES ({marks})");
        let values = values.iter().chain([&seal]);
        let done = self.connection.prepare_cached(&text).and_then(|mut row| row.execute(params_from_iter(values)));
        self.sql(done).map(|_| ())
    }

    fn one<T, const N: usize>(
        &self,
        text: &str,
        values: [Value; N],
        of: impl FnOnce(&Row) -> Result<T, rusqlite::Error>,
    ) -> Result<Option<T>, Error>
    where
        [Value; N]: Params,
    {
        let one = |mut statement: rusqlite::CachedStatement| statement.query_row(values, of).optional();
        self.sql(self.connection.prepare_cached(text).and_then(one))
    }

    fn number(&self, text: &str) -> Result<i64, Error> {
        self.sql(self.connection.query_row(text, [], |row| row.get(0)))
    }

    fn run(&self, text: &str) -> Result<(), Error> {
        self.sql(self.connection.execute_batch(text))
    }

    fn sql<T>(&self, done: Result<T, rusqlite::Error>) -> Result<T, Error> {
        done.map_err(|error| error_of(&self.path, &error))
    }

    fn refused(&self, why: &str) -> Error {
        Error::with(&self.path, why)
    }

    fn damaged(&self) -> Error {
        self.refused(DAMAGED)
    }
}

const DAMAGED: &str =
    "the ledger is damaged; it was left unchanged. Without it, or with a new one, all films are read again";

/// What a film is, by its first two columns: bits and refusal.
fn kind_of(row: &Row) -> Result<Kind, rusqlite::Error> {
    Ok(match row.get(1)? {
        Some(refusal) => Kind::Refused(refusal),
        None => Kind::Shows(row.get::<_, i64>(0)? as u64),
    })
}

/// The text that made a table, as bytes: damaged, it may be no text. `None` where there is no such table.
fn text_of(connection: &Connection, table: &str) -> Result<Option<Vec<u8>>, rusqlite::Error> {
    let text = "SELECT CAST(sql AS BLOB) FROM sqlite_master WHERE type = 'table' AND name = ?1";
    connection.query_row(text, [table], |row| row.get(0)).optional()
}

fn error_of(path: &Path, error: &rusqlite::Error) -> Error {
    match error.sqlite_error_code() {
        Some(ErrorCode::NotADatabase) => Error::with(path, "it is not a ledger; it was left unchanged"),
        Some(ErrorCode::DatabaseCorrupt) => Error::with(path, DAMAGED),
        _ => Error::with(path, error.to_string()),
    }
}

/// The pause between two attempts to use a ledger that another run uses.
const PAUSE: Duration = Duration::from_millis(20);

/// After so many attempts a note says that this run waits for another one.
const ATTEMPTS: i32 = 100;

fn wait(attempts: i32) -> bool {
    if attempts == ATTEMPTS {
        report(Status::Success, "note: another run uses this ledger; waiting for it");
    }
    sleep(PAUSE);
    true
}

/// Two classes, always in the same order.
fn in_order(one: Class, other: Class) -> [Class; 2] {
    [one.min(other), one.max(other)]
}

/// A class in two columns: whether keys are given, and their bits that show.
fn stored(class: Class) -> [Value; 2] {
    [number(class.is_some().into()), number(class.unwrap_or(0))]
}

fn number(number: u64) -> Value {
    Value::Integer(number as i64)
}

fn blob(bytes: &[u8]) -> Value {
    Value::Blob(bytes.to_vec())
}

/// The path by which a film is known from any folder.
fn path_value(path: &Path) -> Value {
    use std::os::unix::ffi::OsStrExt;
    let whole = fs::canonicalize(path).unwrap_or_else(|_| path.to_path_buf());
    blob(whole.as_os_str().as_bytes())
}

/// The seal of a row: a part of the SHA-256 of its table and its values, each with its kind and length.
fn seal<'a>(table: &str, values: impl Iterator<Item = ValueRef<'a>>) -> [u8; 8] {
    let mut digest = Sha256::new();
    digest.update(table);
    for value in values {
        let (kind, bytes) = match value {
            ValueRef::Null => (0, Vec::new()),
            ValueRef::Integer(number) => (1, number.to_be_bytes().to_vec()),
            ValueRef::Real(number) => (2, number.to_be_bytes().to_vec()),
            ValueRef::Text(text) => (3, text.to_vec()),
            ValueRef::Blob(blob) => (4, blob.to_vec()),
        };
        digest.update([kind]);
        digest.update((bytes.len() as u64).to_be_bytes());
        digest.update(bytes);
    }
    let mut seal = [0; 8];
    seal.copy_from_slice(&digest.finalize()[..8]);
    seal
}
