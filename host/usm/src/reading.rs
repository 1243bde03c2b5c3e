//! How a film is read.

use crate::ffi;

/// How a film is read. The default takes all audio, and reads payloads and tables as the original does.
///
/// ```
/// use usm::{Audio, Reading};
///
/// assert_eq!(Reading::default().audio, Audio::All);
/// let pictures_alone = Reading::default().with_audio(Audio::None);
/// # assert_eq!(pictures_alone.audio, Audio::None);
/// ```
#[derive(Clone, Copy, PartialEq, Eq, Hash, Debug, Default)]
#[non_exhaustive]
pub struct Reading {
    pub audio: Audio,
    pub payloads: Payloads,
    pub tables: Tables,
}

/// Which audio is taken. What is not taken is skipped unchecked, so a film may be accepted without audio and refused
/// with it.
#[derive(Clone, Copy, PartialEq, Eq, Hash, Debug, Default)]
#[non_exhaustive]
pub enum Audio {
    /// Of every channel, joined as the original joins them.
    #[default]
    All,
    /// Of one channel. That of the others is skipped.
    Channel(u8),
    None,
}

/// Where the payloads of chunks start. Both are the same where every header size is 0x18.
#[derive(Clone, Copy, PartialEq, Eq, Hash, Debug, Default)]
#[non_exhaustive]
pub enum Payloads {
    /// As the original reads them: 0x20 bytes into the chunk, whatever its header size says.
    #[default]
    Original,
    /// Where the header ends. One that is shorter than 0x18 is refused by 17.
    AfterHeader,
}

/// How tables are read.
#[derive(Clone, Copy, PartialEq, Eq, Hash, Debug, Default)]
#[non_exhaustive]
pub enum Tables {
    /// As the original reads them: a column of storage 1 has a value in each row.
    #[default]
    Original,
    /// A column of storage 1 stores nothing: its numbers and floats are 0, its strings and data empty. Storages other
    /// than 1, 3, 5 and 7 are refused by 18.
    ZeroColumns,
}

impl Tables {
    pub(crate) fn for_c(self) -> u8 {
        (self == Tables::ZeroColumns).into()
    }
}

impl Reading {
    /// The same, with another choice of audio.
    pub fn with_audio(self, audio: Audio) -> Reading {
        Reading { audio, ..self }
    }

    /// The same, with payloads from another place on.
    pub fn with_payloads(self, payloads: Payloads) -> Reading {
        Reading { payloads, ..self }
    }

    /// The same, with tables read in another way.
    pub fn with_tables(self, tables: Tables) -> Reading {
        Reading { tables, ..self }
    }

    pub(crate) fn for_c(self) -> ffi::Reading {
        let (audio, channel) = match self.audio {
            Audio::None => (0, 0),
            Audio::All => (1, 0),
            Audio::Channel(channel) => (2, channel),
        };
        ffi::Reading {
            audio,
            channel,
            payloads: (self.payloads == Payloads::AfterHeader).into(),
            tables: self.tables.for_c(),
        }
    }
}
