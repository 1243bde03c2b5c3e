//! Which payloads of films are taken.

use clap::{Args, ValueEnum};
use usm::{Audio, Payloads, Reading, Tables};

/// What commands that take payloads take.
#[derive(Args)]
pub struct ReadingOptions {
    /// Skip audio; damage in it is not noticed then
    #[arg(long)]
    no_audio: bool,
    /// Take audio of this channel alone, 0 to 255; damage in the others is not noticed then
    #[arg(long, value_name = "CHANNEL", conflicts_with = "no_audio")]
    channel: Option<u8>,
    /// Where payloads begin: at byte 0x20 of their chunks, as the original has it, or where the chunk's header ends
    #[arg(long, value_name = "WHERE", value_enum, default_value_t = Start::Original)]
    payloads: Start,
    #[command(flatten)]
    tables: TableOptions,
}

/// How tables are read.
#[derive(Args)]
pub struct TableOptions {
    /// How tables are read: as the original reads them, or with columns of storage 1 that store nothing
    #[arg(long, value_name = "HOW", value_enum, default_value_t = Storage::Original)]
    tables: Storage,
}

#[derive(Clone, Copy, ValueEnum)]
enum Storage {
    Original,
    ZeroColumns,
}

impl TableOptions {
    pub fn tables(&self) -> Tables {
        match self.tables {
            Storage::Original => Tables::Original,
            Storage::ZeroColumns => Tables::ZeroColumns,
        }
    }

    /// Films are read as by default, but for their tables.
    pub fn reading(&self) -> Reading {
        Reading::default().with_tables(self.tables())
    }
}

#[derive(Clone, Copy, ValueEnum)]
enum Start {
    Original,
    AfterHeader,
}

impl ReadingOptions {
    pub fn reading(&self) -> Reading {
        let audio = match self.channel {
            Some(channel) => Audio::Channel(channel),
            None if self.no_audio => Audio::None,
            None => Audio::All,
        };
        let payloads = match self.payloads {
            Start::Original => Payloads::Original,
            Start::AfterHeader => Payloads::AfterHeader,
        };
        Reading::default().with_audio(audio).with_payloads(payloads).with_tables(self.tables.tables())
    }
}
