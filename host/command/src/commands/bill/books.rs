//! The books of one bill: holdings, films and streams in a temporary database, which SQLite keeps in memory as far as
//! its cache goes and on the disk beyond that. Groups and shares are computed by bill.sql.

use std::cell::RefCell;
use std::collections::HashMap;
use std::ffi::{OsStr, OsString};
use std::os::unix::ffi::{OsStrExt, OsStringExt};
use std::path::{Path, PathBuf};

use rusqlite::{Connection, OptionalExtension, Params, Row, params};

use super::films::Found;
use super::holdings::Holding;
use crate::files::identity::{FileId, Identity};
use crate::output::Error;
use crate::run::digests::{Stream, Streams};
use crate::sharing::classes::{Class, Classes};

/// The text that computes groups and shares.
const BILL: &str = include_str!("bill.sql");

const TABLES: &str = "
    PRAGMA cache_size = -8192;
    PRAGMA temp_store = FILE;
    PRAGMA journal_mode = OFF;
    PRAGMA synchronous = OFF;
    CREATE TABLE tenant (tenant INTEGER PRIMARY KEY, name BLOB);
    CREATE TABLE film (film INTEGER PRIMARY KEY, path BLOB NOT NULL UNIQUE, title BLOB, file INTEGER);
    CREATE TABLE holding (line INTEGER PRIMARY KEY, tenant INTEGER NOT NULL, film INTEGER NOT NULL,
        given INTEGER NOT NULL, key INTEGER NOT NULL, further TEXT);
    CREATE TABLE file (file INTEGER PRIMARY KEY, path BLOB NOT NULL, device INTEGER, inode INTEGER, size INTEGER,
        mtime INTEGER, bits INTEGER, error TEXT, UNIQUE (device, inode));
    CREATE TABLE entry (entry INTEGER PRIMARY KEY, file INTEGER NOT NULL, given INTEGER NOT NULL, key INTEGER NOT NULL,
        streams INTEGER, UNIQUE (file, given, key));
    CREATE TABLE held (tenant INTEGER NOT NULL, entry INTEGER NOT NULL, PRIMARY KEY (entry, tenant)) WITHOUT ROWID;
    CREATE TABLE streams (streams INTEGER PRIMARY KEY, file INTEGER NOT NULL, given INTEGER NOT NULL,
        class INTEGER NOT NULL, video_bytes INTEGER NOT NULL, audio_bytes INTEGER NOT NULL, video_sha256 BLOB NOT NULL,
        audio_sha256 BLOB NOT NULL, apart_from INTEGER, apart_in_audio INTEGER, apart_byte INTEGER,
        apart_chunk INTEGER);
    CREATE INDEX streams_class ON streams (file, given, class);";

/// Every holding of a film, that is, of a file: one that is named by two paths is one film. Rows are inserted
/// by rising keys, so that no page is visited twice.
const ENTRIES: &str = "
    INSERT OR IGNORE INTO tenant (tenant) SELECT DISTINCT tenant FROM holding ORDER BY 1;
    INSERT INTO entry (file, given, key)
        SELECT DISTINCT film.file, holding.given, holding.key FROM holding JOIN film USING (film) ORDER BY 1, 2, 3;
    INSERT INTO held (entry, tenant)
        SELECT DISTINCT entry.entry, holding.tenant
            FROM holding JOIN film USING (film) JOIN entry USING (file, given, key) ORDER BY 1, 2;";

/// The bill's lines, in the order in which bill.sql gives them.
const LINES: &str = "
    CREATE TABLE line (way INTEGER, tenant INTEGER, copy INTEGER, lowest INTEGER, share INTEGER, streams INTEGER,
        PRIMARY KEY (way, tenant, copy)) WITHOUT ROWID;
    INSERT INTO line SELECT way, tenant, copy, lowest, share, streams";

/// The copies: numbered for a reader by their lowest tenants, then by their digests.
const COPIES: &str = "
    CREATE INDEX line_copy ON line (way, copy, tenant);
    CREATE INDEX streams_digests ON streams (video_sha256, audio_sha256);
    CREATE TABLE copy (number INTEGER PRIMARY KEY, copy INTEGER NOT NULL, lowest INTEGER NOT NULL,
        tenants INTEGER NOT NULL, streams INTEGER NOT NULL);
    INSERT INTO copy (copy, lowest, tenants, streams)
        SELECT copy, MIN(lowest), COUNT(*), MIN(streams) FROM line WHERE way = 1 GROUP BY copy ORDER BY 2, 1;
    CREATE TABLE member (streams INTEGER PRIMARY KEY, number INTEGER NOT NULL);
    INSERT INTO member SELECT one.streams, copy.number FROM copy JOIN streams AS other USING (streams)
        JOIN streams AS one ON one.video_sha256 = other.video_sha256 AND one.audio_sha256 = other.audio_sha256
            AND one.video_bytes = other.video_bytes AND one.audio_bytes = other.audio_bytes;
    CREATE INDEX member_number ON member (number);
    CREATE INDEX film_file ON film (file);
    CREATE INDEX entry_streams ON entry (streams);";

pub struct Books {
    database: Connection,
    /// The films of the holdings that were added last.
    films: RefCell<HashMap<Vec<u8>, i64>>,
}

/// How many films are remembered while holdings are added.
const REMEMBERED: usize = 10_000;

/// A film that is still to be examined.
pub struct Wanted {
    pub file: i64,
    pub path: PathBuf,
    pub identity: Identity,
}

/// By which ways films are billed: as they were filed before and as they are now, or as they are now alone.
pub enum Ways {
    BeforeAndNow,
    Now,
}

/// A line of the bill.
pub struct Line {
    pub tenant: u64,
    /// The copy's lowest tenant.
    pub group: u64,
    pub streams: Streams,
    pub share: u64,
}

/// What a tenant bears.
pub struct Total {
    pub tenant: u64,
    pub name: Option<Vec<u8>>,
    pub copies: u64,
    /// What it bore where each film and key was a copy.
    pub before: u64,
    pub share: u64,
}

/// A holding that is not billed.
pub struct Unbilled {
    pub line: u64,
    pub tenant: u64,
    pub path: PathBuf,
    pub why: String,
}

/// A line of HOLDINGS, and the copy that it shares.
pub struct HeldLine {
    pub line: u64,
    pub tenant: u64,
    pub key: Option<u64>,
    pub path: PathBuf,
    /// `None` where it is not billed.
    pub copy: Option<u64>,
    /// The further columns, as a JSON object.
    pub further: Option<String>,
}

/// How many copies there are, and their bytes.
#[derive(Clone, Copy)]
pub struct Amount {
    pub copies: u64,
    pub bytes: u64,
}

/// A house in numbers.
pub struct Summary {
    pub holdings: u64,
    pub tenants: u64,
    pub films: u64,
    pub unbilled_films: u64,
    pub unbilled_holdings: u64,
    pub before: Amount,
    pub now: Amount,
}

impl Summary {
    pub fn is_incomplete(&self) -> bool {
        self.unbilled_films > 0
    }
}

impl Books {
    pub fn new() -> Result<Books, Error> {
        // An empty name stands for a temporary file that nobody else sees.
        let books = Books { database: Connection::open("").map_err(error)?, films: RefCell::default() };
        books.run(TABLES)?;
        Ok(books)
    }

    fn run(&self, text: &str) -> Result<(), Error> {
        self.database.execute_batch(text).map_err(error)
    }

    fn execute(&self, text: &str, values: impl Params) -> Result<(), Error> {
        self.database.prepare_cached(text).and_then(|mut statement| statement.execute(values)).map_err(error)?;
        Ok(())
    }

    pub(super) fn one<T>(
        &self,
        text: &str,
        values: impl Params,
        of: impl FnOnce(&Row) -> Result<T, rusqlite::Error>,
    ) -> Result<Option<T>, Error> {
        self.database
            .prepare_cached(text)
            .and_then(|mut statement| statement.query_row(values, of).optional())
            .map_err(error)
    }

    fn all<T>(
        &self,
        text: &str,
        values: impl Params,
        of: impl FnMut(&Row) -> Result<T, rusqlite::Error>,
    ) -> Result<Vec<T>, Error> {
        let all = |mut statement: rusqlite::CachedStatement| statement.query_map(values, of)?.collect();
        self.database.prepare_cached(text).and_then(all).map_err(error)
    }

    pub(super) fn each<T>(
        &self,
        text: &str,
        values: impl Params,
        of: impl Fn(&Row) -> Result<T, rusqlite::Error>,
        mut take: impl FnMut(T) -> Result<(), Error>,
    ) -> Result<(), Error> {
        let mut statement = self.database.prepare_cached(text).map_err(error)?;
        let mut rows = statement.query(values).map_err(error)?;
        while let Some(row) = rows.next().map_err(error)? {
            take(of(row).map_err(error)?)?;
        }
        Ok(())
    }

    /// Runs many steps in one transaction.
    pub fn together<T>(&self, steps: impl FnOnce() -> Result<T, Error>) -> Result<T, Error> {
        self.run("BEGIN")?;
        let done = steps()?;
        self.run("COMMIT")?;
        Ok(done)
    }

    /// Adds a holding.
    pub fn add(&self, holding: &Holding) -> Result<(), Error> {
        let tenant = stored(holding.tenant);
        if let Some(name) = holding.further("name") {
            self.execute(
                "INSERT INTO tenant VALUES (?1, ?2) ON CONFLICT DO UPDATE SET name = excluded.name
                    WHERE name IS NULL OR excluded.name < name",
                params![tenant, name],
            )?;
        }
        let film = self.film(holding)?;
        let (given, key) = stored_key(holding.key);
        self.execute(
            "INSERT INTO holding VALUES (?1, ?2, ?3, ?4, ?5, ?6)",
            params![holding.line, tenant, film, given, key, further(holding)],
        )
    }

    /// The film of a holding, with its title where it has one.
    fn film(&self, holding: &Holding) -> Result<i64, Error> {
        let path = holding.film.as_os_str().as_bytes();
        let title = holding.further("title");
        let mut films = self.films.borrow_mut();
        if let (Some(&film), None) = (films.get(path), title) {
            return Ok(film);
        }
        self.execute(
            "INSERT INTO film (path, title) VALUES (?1, ?2) ON CONFLICT DO UPDATE SET title = excluded.title
                WHERE excluded.title IS NOT NULL AND (title IS NULL OR excluded.title < title)",
            params![path, title],
        )?;
        let film = self.one("SELECT film FROM film WHERE path = ?1", [path], |row| row.get(0))?.unwrap_or(0);
        if films.len() == REMEMBERED {
            films.clear();
        }
        films.insert(path.to_vec(), film);
        Ok(film)
    }

    /// Finds the file of every film. Two paths of one file are one film, and the lower path is its name.
    pub fn find_films(&self, mut find: impl FnMut(&Path) -> Result<Identity, String>) -> Result<(), Error> {
        // No path is empty.
        let mut last = Vec::new();
        loop {
            let films =
                self.all("SELECT film, path FROM film WHERE path > ?1 ORDER BY path LIMIT 1000", [&last], |row| {
                    Ok((row.get::<_, i64>(0)?, row.get::<_, Vec<u8>>(1)?))
                })?;
            for (film, path) in &films {
                self.place(*film, path, find(Path::new(OsStr::from_bytes(path))))?;
            }
            match films.into_iter().next_back() {
                Some((_, path)) => last = path,
                None => return self.run(ENTRIES),
            }
        }
    }

    fn place(&self, film: i64, path: &[u8], found: Result<Identity, String>) -> Result<(), Error> {
        let file = match found {
            Ok(identity) => {
                let Identity { id: FileId { device, inode }, size, mtime } = identity;
                self.execute(
                    "INSERT OR IGNORE INTO file (path, device, inode, size, mtime) VALUES (?1, ?2, ?3, ?4, ?5)",
                    params![path, device as i64, inode as i64, size, mtime],
                )?;
                self.one(
                    "SELECT file FROM file WHERE device = ?1 AND inode = ?2",
                    params![device as i64, inode as i64],
                    |row| row.get(0),
                )?
            }
            Err(why) => {
                self.execute("INSERT INTO file (path, error) VALUES (?1, ?2)", params![path, why])?;
                Some(self.database.last_insert_rowid())
            }
        };
        self.execute("UPDATE film SET file = ?2 WHERE film = ?1", params![film, file])
    }

    /// The bytes of all films that are still to be examined.
    pub fn bytes_wanted(&self) -> Result<u64, Error> {
        let sum = self.one("SELECT IFNULL(SUM(size), 0) FROM file WHERE error IS NULL", [], |row| row.get(0))?;
        Ok(sum.unwrap_or(0))
    }

    /// The next film to be examined, after another.
    pub fn wanted_after(&self, file: i64) -> Result<Option<Wanted>, Error> {
        self.one(
            "SELECT file, path, device, inode, size, mtime FROM file WHERE file > ?1 AND error IS NULL ORDER BY file LIMIT 1",
            [file],
            |row| {
                let [device, inode] = [row.get::<_, i64>(2)?, row.get(3)?].map(|number| number as u64);
                let identity = Identity { id: FileId { device, inode }, size: row.get(4)?, mtime: row.get(5)? };
                Ok(Wanted { file: row.get(0)?, path: path_of(row.get(1)?), identity })
            },
        )
    }

    /// The classes of the keys under which a film is held that shows these bits: first that of its lowest tenant.
    pub fn classes(&self, file: i64, bits: u64) -> Result<Vec<Class>, Error> {
        let mut classes = Classes::new(bits);
        self.each(
            "SELECT given, key FROM entry JOIN held USING (entry) WHERE file = ?1 GROUP BY entry
                ORDER BY MIN(tenant), given, key",
            [file],
            |row| Ok(key_of(row.get(0)?, row.get(1)?)),
            |key| {
                classes.add(key);
                Ok(())
            },
        )?;
        Ok(classes.in_order())
    }

    /// Records which bits of a key a film shows.
    pub fn learn_bits(&self, file: i64, bits: u64) -> Result<(), Error> {
        self.execute("UPDATE file SET bits = ?2 WHERE file = ?1", params![file, bits as i64])
    }

    /// Adds the streams of a class of keys, and where they differ from those of the film's first class. Returns their number.
    pub fn learn_streams(&self, file: i64, bits: u64, found: &Found, first: Option<i64>) -> Result<i64, Error> {
        let Found { class, streams: Streams { video, audio }, apart } = found;
        let (given, class) = stored_class(*class, bits);
        self.execute(
            "INSERT INTO streams (file, given, class, video_bytes, audio_bytes, video_sha256, audio_sha256, apart_from,
                apart_in_audio, apart_byte, apart_chunk) VALUES (?1, ?2, ?3, ?4, ?5, ?6, ?7, ?8, ?9, ?10, ?11)",
            params![
                file,
                given,
                class,
                video.bytes,
                audio.bytes,
                video.sha256,
                audio.sha256,
                first,
                apart.map(|apart| apart.is_audio),
                apart.map(|apart| apart.byte),
                apart.map(|apart| apart.chunk)
            ],
        )?;
        Ok(self.database.last_insert_rowid())
    }

    /// Records which streams a film has under each of its keys: those of the key's class.
    pub fn learn_keys(&self, file: i64, bits: u64) -> Result<(), Error> {
        self.execute(
            "UPDATE entry SET streams = (SELECT streams FROM streams WHERE streams.file = entry.file
                AND streams.given = (entry.given AND ?2 <> 0) AND class = (key & ?2)) WHERE file = ?1",
            params![file, bits as i64],
        )
    }

    /// Records that a film can't be billed, and why. What was learnt of it before is dropped.
    pub fn leave_out(&self, file: i64, why: &str) -> Result<(), Error> {
        self.execute("UPDATE entry SET streams = NULL WHERE file = ?1", [file])?;
        self.execute("DELETE FROM streams WHERE file = ?1", [file])?;
        self.execute("UPDATE file SET error = ?2 WHERE file = ?1", params![file, why])
    }

    /// Computes groups and shares.
    pub fn bill(&self, ways: Ways) -> Result<(), Error> {
        let which = match ways {
            Ways::BeforeAndNow => "",
            Ways::Now => "WHERE way = 1",
        };
        self.run(&format!("{LINES} FROM ({BILL}) AS bill {which}"))
    }

    /// Numbers the copies, for all that is asked of them.
    pub fn number_copies(&self) -> Result<(), Error> {
        self.run(COPIES)
    }

    pub fn summary(&self) -> Result<Summary, Error> {
        let number = |text: &str| self.one(text, [], |row| row.get(0)).map(|found| found.unwrap_or(0));
        let amount = |text: &str| {
            let found = self.one(text, [], |row| Ok(Amount { copies: row.get(0)?, bytes: row.get(1)? }));
            found.map(|found| found.unwrap_or(Amount { copies: 0, bytes: 0 }))
        };
        Ok(Summary {
            holdings: number("SELECT COUNT(*) FROM holding")?,
            tenants: number("SELECT COUNT(*) FROM tenant")?,
            films: number("SELECT COUNT(*) FROM file")?,
            unbilled_films: self.unbilled_films()?,
            unbilled_holdings: number(
                "SELECT COUNT(*) FROM holding JOIN film USING (film) JOIN file USING (file) WHERE error IS NOT NULL",
            )?,
            before: amount(
                "SELECT COUNT(*), IFNULL(SUM(video_bytes + audio_bytes), 0) FROM entry JOIN streams USING (streams)",
            )?,
            now: amount(
                "SELECT COUNT(*), IFNULL(SUM(video_bytes + audio_bytes), 0) FROM copy JOIN streams USING (streams)",
            )?,
        })
    }

    /// The bill's lines, by rising tenant, then by the digests.
    pub fn lines(&self, take: impl FnMut(Line) -> Result<(), Error>) -> Result<(), Error> {
        self.each(
            "SELECT tenant, lowest, share, video_bytes, audio_bytes, video_sha256, audio_sha256
                FROM line JOIN streams USING (streams) WHERE way = 1 ORDER BY tenant, copy",
            [],
            |row| {
                let streams = streams_of(row, 3)?;
                Ok(Line { tenant: number(row.get(0)?), group: number(row.get(1)?), share: row.get(2)?, streams })
            },
            take,
        )
    }

    /// What each tenant bears, by rising tenant; or what one bears alone.
    pub fn totals(&self, tenant: Option<u64>, take: impl FnMut(Total) -> Result<(), Error>) -> Result<(), Error> {
        self.each(
            "SELECT tenant.tenant, name, COUNT(CASE way WHEN 1 THEN 1 END), SUM(CASE way WHEN 0 THEN share ELSE 0 END),
                SUM(CASE way WHEN 1 THEN share ELSE 0 END)
                FROM tenant LEFT JOIN line ON line.tenant = tenant.tenant AND way IN (0, 1)
                WHERE ?1 IS NULL OR tenant.tenant = ?1 GROUP BY tenant.tenant ORDER BY tenant.tenant",
            [tenant.map(stored)],
            |row| {
                Ok(Total {
                    tenant: number(row.get(0)?),
                    name: row.get(1)?,
                    copies: row.get(2)?,
                    before: row.get(3)?,
                    share: row.get(4)?,
                })
            },
            take,
        )
    }

    pub fn has_tenant(&self, tenant: u64) -> Result<bool, Error> {
        Ok(self.one("SELECT 1 FROM tenant WHERE tenant = ?1", [stored(tenant)], |_| Ok(()))?.is_some())
    }

    /// What a tenant is called, where HOLDINGS says it.
    pub fn name(&self, tenant: u64) -> Result<Option<Vec<u8>>, Error> {
        Ok(self.one("SELECT name FROM tenant WHERE tenant = ?1", [stored(tenant)], |row| row.get(0))?.flatten())
    }

    /// Whether a file is one of the films.
    pub fn has_file(&self, id: FileId) -> Result<bool, Error> {
        let FileId { device, inode } = id;
        let found =
            self.one("SELECT 1 FROM file WHERE device = ?1 AND inode = ?2", [device as i64, inode as i64], |_| Ok(()))?;
        Ok(found.is_some())
    }

    /// The lines of HOLDINGS, as they stand.
    pub fn holdings(&self, take: impl FnMut(HeldLine) -> Result<(), Error>) -> Result<(), Error> {
        self.each(
            "SELECT line, holding.tenant, given, key, path, number, further FROM holding JOIN film USING (film)
                JOIN entry USING (file, given, key) LEFT JOIN member USING (streams) ORDER BY line",
            [],
            |row| {
                let (line, tenant, key) = (row.get(0)?, number(row.get(1)?), key_of(row.get(2)?, row.get(3)?));
                let (path, copy, further) = (path_of(row.get(4)?), row.get(5)?, row.get(6)?);
                Ok(HeldLine { line, tenant, key, path, copy, further })
            },
            take,
        )
    }

    /// How many films are not billed.
    pub fn unbilled_films(&self) -> Result<u64, Error> {
        let films = self.one("SELECT COUNT(*) FROM file WHERE error IS NOT NULL", [], |row| row.get(0))?;
        Ok(films.unwrap_or(0))
    }

    /// How many of these a tenant holds.
    pub fn unbilled_films_of(&self, tenant: u64) -> Result<u64, Error> {
        let films = self.one(
            "SELECT COUNT(DISTINCT file) FROM holding JOIN film USING (film) JOIN file USING (file)
                WHERE error IS NOT NULL AND tenant = ?1",
            [stored(tenant)],
            |row| row.get(0),
        )?;
        Ok(films.unwrap_or(0))
    }

    /// The holdings that are not billed, by film, then by tenant: all, or those of one tenant.
    pub fn unbilled(&self, tenant: Option<u64>, take: impl FnMut(Unbilled) -> Result<(), Error>) -> Result<(), Error> {
        self.each(
            "SELECT line, tenant, film.path, error FROM holding JOIN film USING (film) JOIN file USING (file)
                WHERE error IS NOT NULL AND (?1 IS NULL OR tenant = ?1) ORDER BY film.path, tenant, line",
            [tenant.map(stored)],
            |row| {
                let (line, tenant) = (row.get(0)?, number(row.get(1)?));
                Ok(Unbilled { line, tenant, path: path_of(row.get(2)?), why: row.get(3)? })
            },
            take,
        )
    }
}

fn error(error: rusqlite::Error) -> Error {
    Error::System(format!("the bill's temporary database: {error}"))
}

/// A number of 64 bits as SQL has them, signed: none is lost, and their order is kept.
pub(super) fn stored(number: u64) -> i64 {
    (number ^ 1 << 63) as i64
}

pub(super) fn number(stored: i64) -> u64 {
    stored as u64 ^ 1 << 63
}

/// A key in two columns: whether there is one, and which.
fn stored_key(key: Option<u64>) -> (bool, i64) {
    (key.is_some(), stored(key.unwrap_or(0)))
}

/// A class in two columns, as a stored key has them where a film shows these bits.
fn stored_class(class: Class, bits: u64) -> (bool, i64) {
    let (given, key) = stored_key(class);
    (given, key & bits as i64)
}

pub(super) fn key_of(given: bool, key: i64) -> Option<u64> {
    given.then(|| number(key))
}

pub(super) fn path_of(bytes: Vec<u8>) -> PathBuf {
    OsString::from_vec(bytes).into()
}

pub(super) fn streams_of(row: &Row, at: usize) -> Result<Streams, rusqlite::Error> {
    let stream = |bytes: usize, digest: usize| -> Result<Stream, rusqlite::Error> {
        Ok(Stream { bytes: row.get(bytes)?, sha256: row.get(digest)? })
    };
    Ok(Streams { video: stream(at, at + 2)?, audio: stream(at + 1, at + 3)? })
}

/// The further columns of a holding that are kept for programs, as a JSON object.
fn further(holding: &Holding) -> Option<String> {
    let text = |bytes: &[u8]| crate::output::text::Text(bytes).to_string();
    let columns: serde_json::Map<String, serde_json::Value> =
        holding.further.iter().map(|(name, value)| (text(name), text(value).into())).collect();
    (!columns.is_empty()).then(|| serde_json::Value::Object(columns).to_string())
}

#[cfg(test)]
mod tests {
    use super::{number, stored};

    #[test]
    fn all_64_bits_are_kept_in_their_order() {
        let numbers = [0, 1, 9, 10, (1 << 63) - 1, 1 << 63, u64::MAX - 1, u64::MAX];
        assert!(numbers.iter().all(|&each| number(stored(each)) == each));
        assert!(numbers.is_sorted_by_key(|&each| stored(each)));
    }
}
