//! Why a film or a table is refused.

use std::error::Error;
use std::fmt;

/// A film or a table that is refused: by which rule, and where.
///
/// ```
/// let film = std::fs::read("tests/song.usm")?;
/// let refusal = usm::outline(&film[..720], usm::Reading::default()).unwrap_err();
/// assert_eq!(refusal.number, 1);
/// assert_eq!(refusal.place, 704);
/// assert_eq!(refusal.reason, usm::Reason::RanOut);
/// assert_eq!(refusal.to_string(), "refused 1 at 704: bytes run out");
/// # Ok::<(), std::io::Error>(())
/// ```
#[derive(Clone, Copy, PartialEq, Eq, Hash, Debug)]
pub struct Refusal {
    /// The number that the rules and the C header give it.
    pub number: u8,
    /// The start of the block or chunk being read, which may lie past the end; for a table that is read by itself, the
    /// table's own. 0 where the whole film is meant.
    pub place: usize,
    /// The same as the number, by name.
    pub reason: Reason,
}

/// The reasons for a refusal. As text each is a few words.
#[derive(Clone, Copy, PartialEq, Eq, Hash, Debug)]
#[non_exhaustive]
pub enum Reason {
    /// 1: bytes run out.
    RanOut,
    /// 2: no `CRID` at the start.
    NoFilm,
    /// 3: no `@UTF` where a table begins.
    NoTable,
    /// 4: no `@SFV` where one is expected.
    NoVideo,
    /// 5: no `@SFA` where one is expected.
    NoAudio,
    /// 6: no `#HEADER END` where one is expected.
    NoHeaderEnd,
    /// 7: no `#METADATA END` where one is expected.
    NoMetadataEnd,
    /// 8: a column type that is unknown: 7, 9 or 12 to 15.
    UnknownType(u8),
    /// 9: a table size below 24, or a block size below header plus footer size.
    TooSmall,
    /// 10: over 64 columns or 256 rows in a table.
    TooMany,
    /// 11: a film of over [`LONGEST_FILM`](crate::LONGEST_FILM) bytes.
    TooLong,
    /// 15: a payload to be written begins with `#CONTENTS END`, and would be skipped where the film is read.
    MarkedPayload,
    /// 17: a header size below 0x18, with [`Payloads::AfterHeader`](crate::Payloads::AfterHeader).
    ShortHeader,
    /// 18: a column's storage is none of 1, 3, 5 and 7, with [`Tables::ZeroColumns`](crate::Tables::ZeroColumns).
    UnknownStorage,
    /// 19: not what the old builder writes, or, on the way back, no film that was moved from it.
    Foreign,
    /// 20: a film of the old builder with more than one audio.
    ManyAudios,
    /// 21: no beginning of the film is accepted.
    NoBeginning,
    /// 22: no tenant, over 16 of them, or a number twice.
    BadTenants,
    /// 23: an audio codec without audio.
    CodecAlone,
    /// Another number than those above. The functions of this crate give none.
    Other(u8),
}

impl Refusal {
    /// The refusal of a reply, where its number is one.
    pub(crate) fn check(number: u8, place: usize, unknown_type: u8) -> Result<(), Refusal> {
        match number {
            0 => Ok(()),
            number => Err(Refusal { number, place, reason: Reason::of(number, unknown_type) }),
        }
    }

    /// The refusal of a film by its length alone, for a caller who has not read it: [`Reason::TooLong`] where it is
    /// longer than [`LONGEST_FILM`](crate::LONGEST_FILM).
    pub fn by_length(length: u64) -> Result<(), Refusal> {
        let number = if length > crate::LONGEST_FILM as u64 { 11 } else { 0 };
        Refusal::check(number, 0, 0)
    }
}

impl Reason {
    pub(crate) fn of(number: u8, unknown_type: u8) -> Reason {
        match number {
            1 => Reason::RanOut,
            2 => Reason::NoFilm,
            3 => Reason::NoTable,
            4 => Reason::NoVideo,
            5 => Reason::NoAudio,
            6 => Reason::NoHeaderEnd,
            7 => Reason::NoMetadataEnd,
            8 => Reason::UnknownType(unknown_type),
            9 => Reason::TooSmall,
            10 => Reason::TooMany,
            11 => Reason::TooLong,
            15 => Reason::MarkedPayload,
            17 => Reason::ShortHeader,
            18 => Reason::UnknownStorage,
            19 => Reason::Foreign,
            20 => Reason::ManyAudios,
            21 => Reason::NoBeginning,
            22 => Reason::BadTenants,
            23 => Reason::CodecAlone,
            number => Reason::Other(number),
        }
    }
}

impl Reason {
    /// The number that the rules and the C header give it.
    pub fn number(self) -> u8 {
        match self {
            Reason::RanOut => 1,
            Reason::NoFilm => 2,
            Reason::NoTable => 3,
            Reason::NoVideo => 4,
            Reason::NoAudio => 5,
            Reason::NoHeaderEnd => 6,
            Reason::NoMetadataEnd => 7,
            Reason::UnknownType(_) => 8,
            Reason::TooSmall => 9,
            Reason::TooMany => 10,
            Reason::TooLong => 11,
            Reason::MarkedPayload => 15,
            Reason::ShortHeader => 17,
            Reason::UnknownStorage => 18,
            Reason::Foreign => 19,
            Reason::ManyAudios => 20,
            Reason::NoBeginning => 21,
            Reason::BadTenants => 22,
            Reason::CodecAlone => 23,
            Reason::Other(number) => number,
        }
    }
}

impl fmt::Display for Reason {
    fn fmt(&self, f: &mut fmt::Formatter) -> fmt::Result {
        match self {
            Reason::RanOut => f.write_str("bytes run out"),
            Reason::NoFilm => f.write_str("no CRID at the start"),
            Reason::NoTable => f.write_str("no @UTF where a table begins"),
            Reason::NoVideo => f.write_str("no @SFV where one is expected"),
            Reason::NoAudio => f.write_str("no @SFA where one is expected"),
            Reason::NoHeaderEnd => f.write_str("no #HEADER END where one is expected"),
            Reason::NoMetadataEnd => f.write_str("no #METADATA END where one is expected"),
            Reason::UnknownType(column_type) => write!(f, "unknown column type {column_type}"),
            Reason::TooSmall => f.write_str("a table or block size that is too small"),
            Reason::TooMany => f.write_str("over 64 columns or 256 rows in a table"),
            Reason::TooLong => f.write_str("longer than 1,073,741,824 bytes"),
            Reason::MarkedPayload => f.write_str("a payload begins with the end marker"),
            Reason::ShortHeader => f.write_str("a header that is too short"),
            Reason::UnknownStorage => f.write_str("unknown storage of a column"),
            Reason::Foreign => f.write_str("neither a film of the old builder nor one moved from it"),
            Reason::ManyAudios => f.write_str("more than one audio"),
            Reason::NoBeginning => f.write_str("no beginning is accepted"),
            Reason::BadTenants => f.write_str("no tenant, over 16 tenants, or a tenant number twice"),
            Reason::CodecAlone => f.write_str("an audio codec without audio"),
            Reason::Other(number) => write!(f, "reason {number}"),
        }
    }
}

impl fmt::Display for Refusal {
    fn fmt(&self, f: &mut fmt::Formatter) -> fmt::Result {
        write!(f, "refused {} at {}: {}", self.number, self.place, self.reason)
    }
}

impl Error for Refusal {}
