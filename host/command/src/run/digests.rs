//! The sizes and digests of a film's two streams.

use std::io::{ErrorKind, Read};

use sha2::{Digest, Sha256};
use usm::Reader;

use crate::output::Error;
use crate::run::input::Input;
use crate::run::progress::Meter;

/// A stream by its size and its SHA-256.
#[derive(Clone, Copy, PartialEq, Eq, Debug)]
pub struct Stream {
    pub bytes: u64,
    pub sha256: [u8; 32],
}

/// Both streams of a film as a key gives them. Audio that is absent is an empty stream.
#[derive(Clone, Copy, PartialEq, Eq, Debug)]
pub struct Streams {
    pub video: Stream,
    pub audio: Stream,
}

/// Two streams that are read part by part.
#[derive(Default)]
pub struct Hashing {
    video: Hashed,
    audio: Hashed,
}

#[derive(Default)]
struct Hashed {
    bytes: u64,
    sha256: Sha256,
}

impl Hashing {
    /// The next part of a stream.
    pub fn add(&mut self, stream: usm::Stream, part: &[u8]) {
        let hashed = match stream {
            usm::Stream::Video => &mut self.video,
            usm::Stream::Audio => &mut self.audio,
        };
        hashed.bytes += part.len() as u64;
        hashed.sha256.update(part);
    }

    pub fn end(self) -> Streams {
        let end = |hashed: Hashed| Stream { bytes: hashed.bytes, sha256: hashed.sha256.finalize().into() };
        Streams { video: end(self.video), audio: end(self.audio) }
    }
}

/// So many bytes of a film are hashed at once.
const PIECE: usize = 256 << 10;

/// The SHA-256 of a film as it is, from its first byte on.
pub fn of_film(input: &mut Input, meter: &Meter) -> Result<[u8; 32], Error> {
    input.restart();
    let mut sha256 = Sha256::new();
    let mut piece = vec![0; PIECE];
    let mut place = 0;
    loop {
        match input.read(&mut piece) {
            Ok(0) => return Ok(sha256.finalize().into()),
            Ok(count) => {
                sha256.update(&piece[..count]);
                place += count;
                meter.reach(place);
            }
            Err(error) if error.kind() == ErrorKind::Interrupted => {}
            Err(error) => return Err(Error::io(error)),
        }
    }
}

/// The streams of a film: clear under a key, or as they are stored without one.
pub fn of(reader: &mut Reader<&mut Input>, key: Option<u64>, meter: &Meter) -> Result<Streams, Error> {
    let mut hashing = Hashing::default();
    while let Some(part) = reader.next_part(key)? {
        hashing.add(part.stream, part.bytes);
        meter.reach(reader.place());
    }
    Ok(hashing.end())
}
