//! What is answered about a container, by the original and by the rules.

use std::fmt;

/// Why a container is refused: the number of the refusal, the start of the block being read, and the type that comes with 8.
#[derive(Clone, Copy, PartialEq, Eq)]
pub struct Refusal {
    pub number: u8,
    pub place: u64,
    /// 0 but for refusal 8.
    pub column_type: u8,
}

impl Refusal {
    pub fn new(number: u8, place: u64) -> Refusal {
        Refusal { number, place, column_type: 0 }
    }
}

impl fmt::Display for Refusal {
    fn fmt(&self, f: &mut fmt::Formatter) -> fmt::Result {
        write!(f, "refused {} at {}", self.number, self.place)?;
        match self.number {
            8 => write!(f, " type {}", self.column_type),
            _ => Ok(()),
        }
    }
}

#[derive(Clone, Copy, PartialEq, Eq, Debug)]
pub enum Kind {
    Video,
    Audio,
    Other,
    End,
}

impl fmt::Display for Kind {
    fn fmt(&self, f: &mut fmt::Formatter) -> fmt::Result {
        f.write_str(match self {
            Kind::Video => "video",
            Kind::Audio => "audio",
            Kind::Other => "other",
            Kind::End => "end",
        })
    }
}

/// A chunk of the list. The length is that of the payload, 0 where it is skipped. The original has no channel: it is not
/// in the lines that are recorded of it.
#[derive(Clone, Copy, PartialEq, Eq)]
pub struct Chunk {
    pub start: u64,
    pub kind: Kind,
    pub data_type: u8,
    pub channel: u8,
    pub length: u64,
}

impl fmt::Display for Chunk {
    fn fmt(&self, f: &mut fmt::Formatter) -> fmt::Result {
        write!(f, "{} {} {} {}", self.start, self.kind, self.data_type, self.length)
    }
}

/// Whether there is audio, and both codecs.
#[derive(Clone, Copy, PartialEq, Eq, Debug)]
pub struct Tracks {
    pub has_audio: bool,
    pub video_codec: Option<u32>,
    pub audio_codec: Option<u32>,
}
