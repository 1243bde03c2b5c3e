//! Objects for programs: one line of JSON each.

use std::io::{self, Write};
use std::path::Path;

use serde::{Serialize, Serializer};
use serde_json::ser::Formatter;

use crate::output::Error;
use crate::output::text::{Hex, Text, is_plain};
use crate::run::digests::Stream;

/// Writes an object. Every character that could move something on a terminal is escaped, which JSON allows for all.
pub fn write(object: &impl Serialize, writer: impl Write) -> Result<(), serde_json::Error> {
    object.serialize(&mut serde_json::Serializer::with_formatter(writer, Visible))
}

/// The bytes of an object as it would be written, or `None` where they are more than so many.
pub fn size_within(object: &impl Serialize, most: u64) -> Option<u64> {
    let mut counter = Counter { count: 0, most };
    write(object, &mut counter).ok().map(|()| counter.count)
}

/// Compact, with what is not plain as `\u`.
struct Visible;

impl Formatter for Visible {
    fn write_string_fragment<W: Write + ?Sized>(&mut self, writer: &mut W, fragment: &str) -> io::Result<()> {
        let mut rest = fragment;
        while let Some(at) = rest.find(|character| !is_plain(character)) {
            let (plain, more) = rest.split_at(at);
            writer.write_all(plain.as_bytes())?;
            let mut characters = more.chars();
            let mut units = [0; 2];
            for unit in characters.next().unwrap_or_default().encode_utf16(&mut units) {
                write!(writer, "\\u{unit:04x}")?;
            }
            rest = characters.as_str();
        }
        writer.write_all(rest.as_bytes())
    }
}

/// Counts bytes, up to a most.
struct Counter {
    count: u64,
    most: u64,
}

impl Write for Counter {
    fn write(&mut self, bytes: &[u8]) -> io::Result<usize> {
        self.count += bytes.len() as u64;
        if self.count > self.most { Err(io::ErrorKind::FileTooLarge.into()) } else { Ok(bytes.len()) }
    }

    fn flush(&mut self) -> io::Result<()> {
        Ok(())
    }
}

/// Bytes as text, in an object.
pub struct AsText<'a>(pub &'a [u8]);

impl Serialize for AsText<'_> {
    fn serialize<S: Serializer>(&self, serializer: S) -> Result<S::Ok, S::Error> {
        serializer.collect_str(&Text(self.0))
    }
}

/// Bytes as hex, in an object.
pub struct AsHex<'a>(pub &'a [u8]);

impl Serialize for AsHex<'_> {
    fn serialize<S: Serializer>(&self, serializer: S) -> Result<S::Ok, S::Error> {
        serializer.collect_str(&Hex(self.0))
    }
}

/// A number where every reader of JSON keeps it exactly, else a string.
pub struct Number(pub u64);

/// The first number that some readers do not keep.
const TOO_LARGE: u64 = 1 << 53;

impl Serialize for Number {
    fn serialize<S: Serializer>(&self, serializer: S) -> Result<S::Ok, S::Error> {
        if self.0 < TOO_LARGE { serializer.serialize_u64(self.0) } else { serializer.collect_str(&self.0) }
    }
}

/// The version of the schema that docs/JSON.md says.
const SCHEMA: u32 = 1;

/// What every object begins with: what it is, and by which schema.
#[derive(Serialize)]
pub struct Kind {
    kind: &'static str,
    schema: u32,
}

impl Kind {
    pub fn new(kind: &'static str) -> Kind {
        Kind { kind, schema: SCHEMA }
    }
}

/// What an object is, and which film it is about.
#[derive(Serialize)]
pub struct About<'a> {
    #[serde(flatten)]
    kind: Kind,
    #[serde(flatten)]
    file: FileName<'a>,
}

impl<'a> About<'a> {
    pub fn new(kind: &'static str, path: &'a Path) -> About<'a> {
        About { kind: Kind::new(kind), file: FileName::new(path) }
    }
}

/// The name of a film's file as text and as hex.
#[derive(Serialize)]
pub struct FileName<'a> {
    file: AsText<'a>,
    file_hex: AsHex<'a>,
}

impl<'a> FileName<'a> {
    pub fn new(path: &'a Path) -> FileName<'a> {
        let bytes = path.as_os_str().as_encoded_bytes();
        FileName { file: AsText(bytes), file_hex: AsHex(bytes) }
    }
}

/// A clear stream, in an object.
#[derive(Serialize)]
pub struct StreamObject<'a> {
    bytes: u64,
    sha256: AsHex<'a>,
}

impl<'a> StreamObject<'a> {
    pub fn of(stream: &'a Stream) -> StreamObject<'a> {
        StreamObject { bytes: stream.bytes, sha256: AsHex(&stream.sha256) }
    }
}

/// The object of a film that fails.
#[derive(Serialize)]
pub struct FailedFilm<'a> {
    #[serde(flatten)]
    about: About<'a>,
    #[serde(skip_serializing_if = "Option::is_none")]
    refused: Option<Refused>,
    #[serde(skip_serializing_if = "Option::is_none")]
    error: Option<&'a str>,
}

#[derive(Serialize)]
struct Refused {
    number: u8,
    place: usize,
    reason: String,
}

impl<'a> FailedFilm<'a> {
    pub fn new(path: &'a Path, error: &'a Error) -> FailedFilm<'a> {
        let (refused, error) = match error {
            Error::Refused(refusal) => (
                Some(Refused { number: refusal.number, place: refusal.place, reason: refusal.reason.to_string() }),
                None,
            ),
            Error::Declined(what) | Error::System(what) => (None, Some(what.as_str())),
            Error::Output(_) => (None, None),
        };
        FailedFilm { about: About::new("failure", path), refused, error }
    }
}

#[cfg(test)]
mod tests {
    use super::{Number, size_within, write};

    #[test]
    fn nothing_moves_a_terminal_and_the_value_stays() {
        let text = "a\u{9b}2J\u{202e}\u{7f}\u{1b}\n\u{E0041}\"\\é漢";
        let mut written = Vec::new();
        write(&text, &mut written).unwrap();
        let json = String::from_utf8(written).unwrap();
        assert_eq!(json, r#""a\u009b2J\u202e\u007f\u001b\n\udb40\udc41\"\\é漢""#);
        assert_eq!(serde_json::from_str::<String>(&json).unwrap(), text);
    }

    #[test]
    fn numbers_that_some_readers_round_are_strings() {
        let json = |number| serde_json::to_string(&Number(number)).unwrap();
        assert_eq!(json((1 << 53) - 1), "9007199254740991");
        assert_eq!(json(1 << 53), "\"9007199254740992\"");
    }

    #[test]
    fn a_size_is_counted_up_to_a_most() {
        assert_eq!(size_within(&"abc", 5), Some(5));
        assert_eq!(size_within(&"abc", 4), None);
    }
}
