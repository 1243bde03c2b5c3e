//! The copies of a bill, and what a reader asks of each: who shares it, and by which films and keys. There may be a million
//! of any of these, so they are handed over one by one, as the database gives them.

use std::path::PathBuf;

use rusqlite::params;

use super::books::{Books, key_of, number, path_of, stored, streams_of};
use crate::output::Error;
use crate::output::numbers::{Few, MOST};
use crate::run::digests::Streams;
use crate::sharing::apart::Apart;
use crate::sharing::classes::{self, Class};
use crate::sharing::why::{self, Why};

pub struct Copy {
    /// By the lowest tenants, then by the digests, from 1 on.
    pub number: u64,
    /// By the digests: its number in bill.sql.
    rank: i64,
    pub streams: Streams,
    /// Its lowest tenant.
    pub group: u64,
    /// How many tenants share it.
    pub tenants: u64,
    /// How many films have its streams.
    pub films: u64,
}

pub struct Share {
    pub tenant: u64,
    pub name: Option<Vec<u8>>,
    pub bytes: u64,
}

/// A film that has the streams of a copy, under one class of keys.
pub struct Film {
    /// As the books number them.
    streams: i64,
    pub path: PathBuf,
    pub title: Option<Vec<u8>>,
    /// The bits of a key that it shows.
    pub bits: u64,
}

/// A key under which a film is held.
pub struct Key {
    /// As the books number it, with its film.
    entry: i64,
    pub key: Option<u64>,
    /// How many tenants hold the film under it.
    pub tenants: u64,
    /// Whether the tenant that was asked for is one of them.
    pub is_own: bool,
}

/// A tenant that holds a film under a key.
pub struct Holder {
    pub tenant: u64,
    pub name: Option<Vec<u8>>,
}

/// Another copy of a film, and where the two first differ.
pub struct OtherCopy {
    pub number: u64,
    /// A key that gives it.
    pub key: Option<u64>,
    pub at: Apart,
}

impl Copy {
    pub fn bytes(&self) -> u64 {
        self.streams.video.bytes + self.streams.audio.bytes
    }

    /// Why its films are one copy: a sentence before those about each film.
    pub fn why(&self) -> String {
        match (self.films, self.tenants) {
            (0 | 1, 1) => why::ALONE.to_string(),
            (0 | 1, _) => "One film serves all of them.".to_string(),
            (films, _) => format!("{films} films, the same streams: the sizes and the digests of all of them agree."),
        }
    }
}

/// What a reader asks. With a tenant, only what that tenant has a part in is handed over.
impl Books {
    /// The copies, by rising number.
    pub fn copies(&self, tenant: Option<u64>, take: impl FnMut(Copy) -> Result<(), Error>) -> Result<(), Error> {
        self.each(
            "SELECT copy.number, copy, lowest, tenants, (SELECT COUNT(*) FROM member WHERE member.number = copy.number),
                video_bytes, audio_bytes, video_sha256, audio_sha256 FROM copy JOIN streams USING (streams)
                WHERE ?1 IS NULL OR copy IN (SELECT copy FROM line WHERE way = 1 AND tenant = ?1) ORDER BY copy.number",
            [tenant.map(stored)],
            |row| {
                let (number_of_copy, rank, group) = (row.get(0)?, row.get(1)?, number(row.get(2)?));
                let (tenants, films, streams) = (row.get(3)?, row.get(4)?, streams_of(row, 5)?);
                Ok(Copy { number: number_of_copy, rank, streams, group, tenants, films })
            },
            take,
        )
    }

    /// Whether a tenant shares the copy of a number.
    pub fn shares_copy(&self, tenant: u64, copy: u64) -> Result<bool, Error> {
        let found = self.one(
            "SELECT 1 FROM copy JOIN line ON way = 1 AND line.copy = copy.copy WHERE number = ?1 AND tenant = ?2",
            params![copy, stored(tenant)],
            |_| Ok(()),
        )?;
        Ok(found.is_some())
    }

    /// The shares of a copy, by rising tenant.
    pub fn shares(
        &self,
        copy: &Copy,
        tenant: Option<u64>,
        take: impl FnMut(Share) -> Result<(), Error>,
    ) -> Result<(), Error> {
        self.each(
            "SELECT tenant, name, share FROM line INDEXED BY line_copy JOIN tenant USING (tenant)
                WHERE way = 1 AND copy = ?1 AND (?2 IS NULL OR tenant = ?2) ORDER BY tenant",
            params![copy.rank, tenant.map(stored)],
            |row| Ok(Share { tenant: number(row.get(0)?), name: row.get(1)?, bytes: row.get(2)? }),
            take,
        )
    }

    /// The films that have the streams of a copy, by their paths.
    pub fn films(
        &self,
        copy: &Copy,
        tenant: Option<u64>,
        take: impl FnMut(Film) -> Result<(), Error>,
    ) -> Result<(), Error> {
        self.each(
            "SELECT streams, path, (SELECT MIN(title) FROM film WHERE film.file = file.file), bits
                FROM member JOIN streams USING (streams) JOIN file USING (file)
                WHERE number = ?1 AND (?2 IS NULL OR EXISTS (
                    SELECT 1 FROM entry JOIN held USING (entry) WHERE entry.streams = member.streams AND tenant = ?2))
                ORDER BY file, streams",
            params![copy.number, tenant.map(stored)],
            |row| {
                let bits = row.get::<_, i64>(3)? as u64;
                Ok(Film { streams: row.get(0)?, path: path_of(row.get(1)?), title: row.get(2)?, bits })
            },
            take,
        )
    }

    /// What the films of a copy are called, each name once: the title of a film, or its path where it has none.
    pub fn titles(
        &self,
        copy: &Copy,
        tenant: Option<u64>,
        take: impl FnMut(Vec<u8>) -> Result<(), Error>,
    ) -> Result<(), Error> {
        self.each(
            "SELECT DISTINCT IFNULL((SELECT MIN(title) FROM film WHERE film.file = file.file), path)
                FROM member JOIN streams USING (streams) JOIN file USING (file)
                WHERE number = ?1 AND (?2 IS NULL OR EXISTS (
                    SELECT 1 FROM entry JOIN held USING (entry) WHERE entry.streams = member.streams AND tenant = ?2))
                ORDER BY 1",
            params![copy.number, tenant.map(stored)],
            |row| row.get(0),
            take,
        )
    }

    /// The keys under which a film has the streams of a copy, by their lowest tenants; first those of the tenant that is
    /// given.
    pub fn keys(
        &self,
        film: &Film,
        tenant: Option<u64>,
        take: impl FnMut(Key) -> Result<(), Error>,
    ) -> Result<(), Error> {
        self.each(
            "SELECT entry, given, key, COUNT(*), IFNULL(MAX(tenant = ?2), 0) AS is_own
                FROM entry JOIN held USING (entry) WHERE streams = ?1 GROUP BY entry
                ORDER BY is_own DESC, MIN(tenant), given, key",
            params![film.streams, tenant.map(stored)],
            |row| {
                let (entry, key) = (row.get(0)?, key_of(row.get(1)?, row.get(2)?));
                Ok(Key { entry, key, tenants: row.get(3)?, is_own: row.get(4)? })
            },
            take,
        )
    }

    /// The class of these keys.
    pub fn class(&self, film: &Film) -> Result<Class, Error> {
        let key = self.one("SELECT given, key FROM entry WHERE streams = ?1 LIMIT 1", [film.streams], |row| {
            Ok(key_of(row.get(0)?, row.get(1)?))
        })?;
        Ok(classes::class(key.flatten(), film.bits))
    }

    /// Why these keys give one copy.
    pub fn why(&self, film: &Film) -> Result<Why, Error> {
        let (mut first, mut why) = (None, Why::OneKey);
        self.each(
            "SELECT given, key FROM entry WHERE streams = ?1",
            [film.streams],
            |row| Ok(key_of(row.get(0)?, row.get(1)?)),
            |key| {
                why = why.max(Why::of_two(film.bits, *first.get_or_insert(key), key));
                Ok(())
            },
        )?;
        Ok(why)
    }

    /// The tenants that hold a film under a key, rising.
    pub fn holders(&self, key: &Key, take: impl FnMut(Holder) -> Result<(), Error>) -> Result<(), Error> {
        self.first_holders(key, i64::MAX, take)
    }

    /// The same, for a person.
    pub fn few_holders(&self, key: &Key) -> Result<Few<Holder>, Error> {
        let mut shown = Vec::new();
        self.first_holders(key, MOST as i64, |holder| {
            shown.push(holder);
            Ok(())
        })?;
        Ok(Few { shown, all: key.tenants })
    }

    fn first_holders(&self, key: &Key, most: i64, take: impl FnMut(Holder) -> Result<(), Error>) -> Result<(), Error> {
        self.each(
            "SELECT tenant, name FROM held JOIN tenant USING (tenant) WHERE entry = ?1 ORDER BY tenant LIMIT ?2",
            [key.entry, most],
            |row| Ok(Holder { tenant: number(row.get(0)?), name: row.get(1)? }),
            take,
        )
    }

    /// Where the streams of a film first differ from those of its first class of keys, and which copy that is. Of the keys
    /// that give that copy, one is chosen whose tenant has these streams too, if there is one.
    pub fn apart(&self, film: &Film) -> Result<Option<OtherCopy>, Error> {
        self.one(
            "SELECT number, first.given, first.key, apart_in_audio, apart_byte, apart_chunk,
                (SELECT MIN(own.tenant) FROM entry JOIN held AS own USING (entry)
                    JOIN held AS other ON other.entry = first.entry AND other.tenant = own.tenant
                    WHERE entry.streams = ?1) AS of_both,
                (SELECT MIN(tenant) FROM held WHERE held.entry = first.entry) AS lowest
                FROM streams JOIN member ON member.streams = apart_from JOIN entry AS first ON first.streams = apart_from
                WHERE streams.streams = ?1 AND apart_byte IS NOT NULL
                ORDER BY of_both IS NULL, IFNULL(of_both, lowest), first.given, first.key LIMIT 1",
            [film.streams],
            |row| {
                let at = Apart { is_audio: row.get(3)?, byte: row.get(4)?, chunk: row.get(5)? };
                Ok(OtherCopy { number: row.get(0)?, key: key_of(row.get(1)?, row.get(2)?), at })
            },
        )
    }

    /// The tenants that hold a film under a key of its first class and under one that gives these streams, rising.
    pub fn holders_of_both(
        &self,
        film: &Film,
        tenant: Option<u64>,
        take: impl FnMut(Holder) -> Result<(), Error>,
    ) -> Result<(), Error> {
        self.each(
            "SELECT DISTINCT held.tenant, name FROM streams JOIN entry USING (streams) JOIN held USING (entry)
                JOIN entry AS first ON first.streams = apart_from
                JOIN held AS other ON other.entry = first.entry AND other.tenant = held.tenant
                JOIN tenant ON tenant.tenant = held.tenant
                WHERE streams.streams = ?1 AND (?2 IS NULL OR held.tenant = ?2) ORDER BY 1",
            params![film.streams, tenant.map(stored)],
            |row| Ok(Holder { tenant: number(row.get(0)?), name: row.get(1)? }),
            take,
        )
    }
}
