//! USM films for Rust programs: their streams, their chunks, the masks of their payloads, and @UTF tables.
//!
//! Thin, safe functions over two static libraries in which every function is proved against its contract. All `unsafe`
//! code is in one module. A film is the bytes of a whole USM file, or is read from a file by [`Reader`].
//!
//! ```
//! use usm::Reading;
//!
//! let film = std::fs::read("tests/song.usm")?;
//! let song = usm::extract(&film, Reading::default(), Some(0x0123456789ABCDEF))?;
//! println!("{} bytes of {}", song.video.len(), song.outline.video.kind);
//!
//! for chunk in &usm::list(&film, Reading::default())? {
//!     println!("{} {} {}", chunk.start, chunk.kind, chunk.payload.len());
//! }
//! # Ok::<(), Box<dyn std::error::Error>>(())
//! ```
//!
//! | to | call |
//! |---|---|
//! | extract both streams | [`extract`], [`extract_into`] |
//! | read a film piece by piece, from a file or any reader | [`Reader`] |
//! | learn what a film holds | [`outline`], [`sizes`] |
//! | learn how large its pictures are and how long it takes | [`Header::details`] |
//! | go through its chunks | [`list`], [`count`] |
//! | jump to a byte of its video | [`index()`], [`Index::seek`] |
//! | read the tables of its header, or any @UTF table | [`header_tables`], [`Reader::into_opening`], [`table`] |
//! | mask and unmask payloads | [`mask`], [`unmask`], [`key_table`] |
//! | give a film another key, piece by piece | [`Reader::rekey`] |
//! | pack streams into a film | [`pack`], [`pack_into`] |
//! | pack streams of any length, from readers to a writer | [`pack_to`] |
//! | move films of the old builder to films that can be read, and back | [`from_old`], [`to_old`] |
//! | save what arrived of a film that was cut | [`salvage()`] |
//! | check a film against the delivery profile | [`profile()`], [`Reader::profile`] |
//! | know which bits of a key a film shows | [`key_bits`] |
//! | know where two keys part, and why they do not | [`apart()`], [`why`] |
//! | divide a film's bytes among tenants | [`statement()`], [`statement_by`] |
//! | write a table as CSV | [`csv()`] |
//!
//! Every film, damaged or hostile, has an answer: a result, or a [`Refusal`] with a number, a place and a reason. No
//! input panics. Where memory is short there is an [`Error`], not an abort: both streams together take no more than the
//! film's own length, a list 24 bytes for each chunk, an index as many for each video payload, and of what is written the
//! size is known before.
//!
//! The feature `cridecoder` has a module with the names and signatures of that crate.
#![deny(unsafe_code)]

mod apart;
mod chunks;
mod debug;
mod details;
mod error;
mod ffi;
mod film;
mod header;
mod index;
mod masks;
mod moves;
mod pack;
mod profile;
mod reader;
mod reading;
mod refusal;
mod rekey;
mod salvage;
mod sized;
mod statement;
mod tables;
mod window;

#[cfg(feature = "cridecoder")]
pub mod cridecoder;

pub use apart::{Parting, Why, apart, why};
pub use chunks::{Chunk, ChunkKind, Chunks, Iter, count, list};
pub use details::{AudioDetails, Details, FrameRate, VideoDetails};
pub use error::Error;
pub use film::{AudioKind, Film, Outline, Track, VideoKind, extract, extract_into, outline, sizes};
pub use header::{HeaderTable, Opening, header_tables};
pub use index::{Entry, Index, Place, index};
pub use masks::{KeyTable, Stream, key_table, mask, unmask};
pub use moves::{Codecs, from_old, from_old_into, from_old_size, to_old, to_old_into};
pub use pack::{Lengths, Streams, pack, pack_into, pack_to, packed_size};
pub use profile::{Offence, Rule, profile};
pub use reader::{ChunkHead, ChunkHeads, Format, Header, Mask, Part, Reader, StreamReader};
pub use reading::{Audio, Payloads, Reading, Tables};
pub use refusal::{Reason, Refusal};
pub use rekey::Rekeying;
pub use salvage::{Salvaged, salvage};
pub use statement::{Share, Tenant, key_bits, statement, statement_by};
pub use tables::{Cell, Column, Row, Table, csv, csv_into, csv_size, table};

/// The bytes of the longest film that is read: 1 GiB.
pub const LONGEST_FILM: usize = 1 << 30;
