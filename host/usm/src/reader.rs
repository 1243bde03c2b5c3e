//! Films that are read piece by piece, in the memory of a window.

use std::fmt;
use std::io::{self, Read, Seek};

use crate::chunks::kind_of;
use crate::debug::Bytes;
use crate::error::make_room;
use crate::ffi::{self, FilmAudio, FilmReply};
use crate::window::{WIDE, Window};
use crate::{AudioKind, ChunkKind, Details, Error, Offence, Payloads, Reading, Refusal, Rule, Stream, VideoKind};

/// A film that is read piece by piece, from anything that is [`Read`] and [`Seek`], or [`Read`] alone where its length is
/// known. What its steps give is what the functions over a whole film give: the same chunks, the same streams, the same
/// refusals (proved of the steps).
///
/// A refusal may come late: what was read before it was of a film that is refused. [`Reader::check`] walks through all
/// chunks first.
///
/// ```
/// use std::io::Read;
/// use usm::{Reader, Reading, Stream};
///
/// let film = std::fs::File::open("tests/song.usm")?;
/// let mut reader = Reader::new(film, Reading::default())?;
/// assert_eq!(reader.header().name.as_deref(), Some(&b"songs/lark.usm"[..]));
///
/// let mut video = Vec::new();
/// reader.into_stream(Stream::Video, Some(0x0123456789ABCDEF)).read_to_end(&mut video)?;
/// assert_eq!(video, std::fs::read("tests/song.video")?);
/// # Ok::<(), Box<dyn std::error::Error>>(())
/// ```
pub struct Reader<R> {
    pub(crate) window: Window<R>,
    reading: Reading,
    header: Header,
    pub(crate) audio: FilmAudio,
    /// So many bytes of the film have its header, and all that the header's tables hold.
    opening: usize,
    /// Where the first chunk stands.
    first: usize,
    /// Where the next one stands.
    next: usize,
    /// What is left of a payload.
    pending: Option<Pending>,
    /// A piece of a payload that reaches into the chunk after it, while it is made clear.
    aside: Vec<u8>,
    /// The last row of a payload that was made clear so far.
    row: [u8; ROW],
}

/// What a film's header says.
#[derive(Clone, PartialEq, Eq)]
#[non_exhaustive]
pub struct Header {
    /// The film's own name as it is stored: bytes of any encoding. `None` where it has none.
    pub name: Option<Vec<u8>>,
    pub video: Format<VideoKind>,
    /// `None` where the film has no audio.
    pub audio: Option<Format<AudioKind>>,
    /// What the tables say beyond that.
    pub details: Details,
}

/// What the header says of a stream.
#[derive(Clone, Copy, PartialEq, Eq, Hash, Debug)]
#[non_exhaustive]
pub struct Format<Kind> {
    /// The codec that the header gives.
    pub codec: Option<u32>,
    pub kind: Kind,
}

/// A chunk, without its payload.
#[derive(Clone, Copy, PartialEq, Eq, Hash, Debug)]
#[non_exhaustive]
pub struct ChunkHead {
    /// The byte of the film where it starts.
    pub start: usize,
    pub kind: ChunkKind,
    /// 0 to 3. Masks are on payloads of type 0 alone.
    pub data_type: u8,
    /// The four letters that it begins with.
    pub letters: [u8; 4],
    /// Byte 12, which says the channel of audio.
    pub channel: u8,
    /// The byte of the film where its payload starts.
    pub payload: usize,
    /// The bytes of its payload, 0 where it is skipped.
    pub length: usize,
    /// The mask on its payload.
    pub mask: Mask,
}

/// Which mask a payload has.
#[derive(Clone, Copy, PartialEq, Eq, Hash, Debug)]
#[non_exhaustive]
pub enum Mask {
    /// It is stored clear.
    None,
    Video,
    Audio,
}

impl Mask {
    fn of(number: u8) -> Mask {
        match number {
            1 => Mask::Video,
            2 => Mask::Audio,
            _ => Mask::None,
        }
    }

    pub(crate) fn number(self) -> u8 {
        match self {
            Mask::None => 0,
            Mask::Video => 1,
            Mask::Audio => 2,
        }
    }

    /// Makes a whole payload with this mask clear, in place.
    pub fn clear(self, key: u64, payload: &mut [u8]) {
        ffi::clear(key, self.number(), payload);
    }

    /// Makes a piece of a payload with this mask clear, in place, and says so: the bytes at a place of a payload of `total`
    /// bytes. Pieces are cut between two rows of 32 bytes, from byte 0x240 of the payload on, and `row` is the clear row
    /// before the piece: the last 32 bytes of what is clear so far, or nothing before the first piece. The clear pieces put
    /// one after the other are what [`Mask::clear`] makes of the payload (proved). Other bytes are no piece: they stay.
    ///
    /// ```
    /// use usm::Mask;
    ///
    /// let stored = [7; 0x300];
    /// let (mut whole, mut pieces) = (stored, stored);
    /// Mask::Video.clear(42, &mut whole);
    ///
    /// let (first, rest) = pieces.split_at_mut(0x240);
    /// assert!(Mask::Video.clear_piece(42, 0x300, 0, &[], first));
    /// assert!(Mask::Video.clear_piece(42, 0x300, 0x240, &first[0x220..], rest));
    /// assert_eq!(pieces, whole);
    /// ```
    pub fn clear_piece(self, key: u64, total: usize, place: usize, row: &[u8], piece: &mut [u8]) -> bool {
        ffi::clear_piece(key, self.number(), total, place, row, piece)
    }

    /// Masks a whole clear payload, in place: the reverse of [`Mask::clear`].
    pub fn apply(self, key: u64, payload: &mut [u8]) {
        match self {
            Mask::None => {}
            Mask::Video => ffi::mask_video(key, payload),
            Mask::Audio => ffi::mask_audio(key, payload),
        }
    }

    /// The bits of a key that a payload of this mask and length shows. The largest number of a film's payloads is what
    /// [`key_bits`](crate::key_bits) gives for the film (proved).
    pub fn key_bits(self, length: usize) -> u64 {
        ffi::payload_bits(self.number(), length)
    }
}

/// A part of a stream.
#[non_exhaustive]
pub struct Part<'w> {
    pub stream: Stream,
    /// The channel of the chunk that it is of.
    pub channel: u8,
    pub bytes: &'w [u8],
}

/// What is left of a payload.
#[derive(Clone, Copy)]
struct Pending {
    stream: Stream,
    channel: u8,
    place: usize,
    left: usize,
    mask: Mask,
    /// How much of it was given.
    given: usize,
    /// Where the next chunk starts: the payload may reach into it.
    next: usize,
}

/// The bytes that a step looks at.
const HEAD: usize = 45;

/// So much of a film is read first.
const BEGINNING: usize = 16 << 10;

/// The bytes of a row, by which a payload is made clear piece by piece.
const ROW: usize = 32;

/// A longer payload is made clear in pieces of so many bytes: a whole number of rows, and enough for a first piece.
const PIECE: usize = WIDE;

impl<R: Read + Seek> Reader<R> {
    /// Opens the film that a reader gives, from where it stands to its end.
    pub fn new(source: R, reading: Reading) -> Result<Reader<R>, Error> {
        Reader::open(Window::new(source)?, reading)
    }

    /// Walks through all chunks that are left, and back to the first. A film that passes is not refused later.
    pub fn check(&mut self) -> Result<(), Error> {
        while self.next_chunk()?.is_some() {}
        self.rewind()
    }

    /// Back to the first chunk.
    pub fn rewind(&mut self) -> Result<(), Error> {
        self.stand_at(self.first)
    }

    /// Back to a chunk of this film that was given before, which is the next one again.
    pub fn back_to(&mut self, chunk: &ChunkHead) -> Result<(), Error> {
        self.stand_at(chunk.start)
    }

    /// So much of the film that it has the header, and all that the header's tables hold.
    pub(crate) fn into_beginning(mut self) -> Result<Vec<u8>, Error> {
        // The name may be as long as the film, and is read again with the beginning.
        self.header.name = None;
        if !self.window.has_beginning(self.opening) {
            self.window.rewind()?;
        }
        self.window.into_beginning(self.opening)
    }

    fn stand_at(&mut self, chunk: usize) -> Result<(), Error> {
        self.window.rewind()?;
        self.next = chunk;
        self.pending = None;
        Ok(())
    }
}

impl<R: Read> Reader<R> {
    /// Opens a film of a known length that can only be read forward: the next bytes of a reader.
    pub fn forward(source: R, length: u64, reading: Reading) -> Result<Reader<R>, Error> {
        Reader::open(Window::forward(source, length)?, reading)
    }

    fn open(mut window: Window<R>, reading: Reading) -> Result<Reader<R>, Error> {
        let total = window.total();
        let mut least = BEGINNING;
        let (reply, details, opening) = loop {
            let beginning = window.beginning(least)?;
            let reply = ffi::open(beginning, total, reading.for_c());
            if reply.more == 0 {
                Refusal::check(reply.film.number, reply.film.refused_at, reply.film.unknown_type)?;
                break (reply, Details::of(beginning, total, reading), beginning.len());
            }
            least = beginning.len().saturating_mul(2);
        };
        let header = Header::of(&reply.film, details, reply.chunks, &mut window)?;
        let film = reply.film;
        let audio = FilmAudio { codec: film.audio_codec, present: film.has_audio, has_codec: film.has_audio_codec };
        let first = reply.chunks;
        Ok(Reader {
            window,
            reading,
            header,
            audio,
            opening,
            first,
            next: first,
            pending: None,
            aside: Vec::new(),
            row: [0; ROW],
        })
    }

    pub(crate) fn reading(&self) -> Reading {
        self.reading
    }

    /// What the film's header says.
    pub fn header(&self) -> &Header {
        &self.header
    }

    /// The film's length.
    pub fn total(&self) -> usize {
        self.window.total()
    }

    /// Where the first chunk stands.
    pub fn first_chunk(&self) -> usize {
        self.first
    }

    /// Where the next chunk stands: so much of the film is done.
    pub fn place(&self) -> usize {
        self.next.min(self.window.total())
    }

    /// What is read from. To read from it elsewhere spoils what this reads.
    pub fn get_ref(&self) -> &R {
        self.window.source()
    }

    /// The next chunk, without its payload; `None` where they are over.
    pub fn next_chunk(&mut self) -> Result<Option<ChunkHead>, Error> {
        self.pending = None;
        self.step(false)
    }

    /// Goes to the next chunk.
    fn step(&mut self, with_payload: bool) -> Result<Option<ChunkHead>, Error> {
        self.step_seen(with_payload, |_, _| ())
    }

    /// The same; a function sees where the chunk is and the bytes there, its head and more.
    pub(crate) fn step_seen(
        &mut self,
        with_payload: bool,
        see: impl FnOnce(usize, &[u8]),
    ) -> Result<Option<ChunkHead>, Error> {
        let (place, total) = (self.next, self.window.total());
        let head = self.window.head(place, HEAD, with_payload)?;
        let reply = ffi::step(head, place, total, self.reading.for_c(), self.audio);
        Refusal::check(reply.number, reply.refused_at, reply.unknown_type)?;
        if reply.found != 1 {
            return Ok(None);
        }
        see(place, head);
        let letters = head.first_chunk().copied().unwrap_or_default();
        self.next = reply.next;
        Ok(Some(ChunkHead {
            start: place,
            kind: kind_of(reply.kind),
            data_type: reply.data_type,
            letters,
            channel: reply.channel,
            payload: reply.payload,
            length: reply.length,
            mask: Mask::of(reply.mask),
        }))
    }

    /// Goes to the next chunk, of a film in which payloads begin at the same places in both readings of them: a film
    /// whose headers have the usual size.
    pub(crate) fn plain_step(&mut self) -> Result<Option<ChunkHead>, Error> {
        let (place, reading) = (self.next, self.reading);
        self.reading = reading.with_payloads(Payloads::AfterHeader);
        let after_header = self.step(true);
        (self.reading, self.next) = (reading.with_payloads(Payloads::Original), place);
        let original = self.step(true);
        self.reading = reading;
        let original = original?;
        match after_header {
            Ok(chunk) if chunk == original => Ok(original),
            Ok(_) | Err(Error::Refused(_)) => Err(Error::NotPlain(Offence { rule: Rule::HeaderSize, place })),
            Err(error) => Err(error),
        }
    }

    /// The chunks that are left, one after the other.
    pub fn chunks(&mut self) -> ChunkHeads<'_, R> {
        ChunkHeads { reader: self, is_over: false }
    }

    /// The next part of the streams, in the order in which the film has them: made clear under a key, or as stored
    /// without one. The parts of a stream put one after the other are the stream.
    pub fn next_part(&mut self, key: Option<u64>) -> Result<Option<Part<'_>>, Error> {
        while self.pending.is_none() {
            let Some(chunk) = self.step(true)? else { return Ok(None) };
            self.pending = Pending::of(&chunk, self.next);
        }
        let Some(pending) = self.pending.take() else { return Ok(None) };
        match key {
            Some(key) if pending.mask != Mask::None => self.clear(pending, key),
            _ => self.stored(pending),
        }
        .map(Some)
    }

    /// The payload of the chunk that was last given, as it is stored. A payload can be taken once.
    pub fn payload(&mut self, chunk: &ChunkHead) -> Result<&[u8], Error> {
        let payload = self.window.part(chunk.payload, chunk.length, self.next)?;
        Ok(payload)
    }

    /// Some bytes of the payload of the chunk that was last given, as they are stored, from a byte of it on: one at least.
    ///
    /// # Panics
    ///
    /// Where the payload has no such byte.
    pub fn payload_from(&mut self, chunk: &ChunkHead, byte: usize) -> Result<&[u8], Error> {
        assert!(byte < chunk.length, "a payload of {} bytes has no byte {byte}", chunk.length);
        let bytes = self.window.some(chunk.payload + byte, chunk.length - byte, self.next)?;
        Ok(bytes)
    }

    /// As much of a payload as there is in the window.
    fn stored(&mut self, pending: Pending) -> Result<Part<'_>, Error> {
        let Pending { stream, channel, place, left, next, .. } = pending;
        let bytes = self.window.some(place, left, next)?;
        self.pending = pending.after(bytes.len());
        Ok(Part { stream, channel, bytes })
    }

    /// A piece of a payload, made clear: in the window, or aside where the next chunk needs its bytes as they are.
    fn clear(&mut self, pending: Pending, key: u64) -> Result<Part<'_>, Error> {
        let Pending { stream, channel, place, left, mask, given, next } = pending;
        let count = left.min(PIECE);
        let stored = self.window.part(place, count, next)?;
        let bytes = if place + count > next {
            self.aside.clear();
            make_room(&mut self.aside, count)?;
            self.aside.extend_from_slice(stored);
            &mut self.aside[..]
        } else {
            stored
        };
        let is_piece = mask.clear_piece(key, given + left, given, &self.row, bytes);
        assert!(is_piece, "a payload is cut between two rows");
        self.pending = pending.after(count);
        if self.pending.is_some() {
            self.row.copy_from_slice(&bytes[count - ROW..]);
        }
        Ok(Part { stream, channel, bytes })
    }

    /// One stream as a reader. A refusal is an error of kind `InvalidData`, with the [`Error`] inside.
    pub fn into_stream(self, stream: Stream, key: Option<u64>) -> StreamReader<R> {
        StreamReader { reader: self, stream, key, rest: 0..0, part: Vec::new() }
    }
}

impl Pending {
    /// The payload of a chunk, where it has one that is taken.
    fn of(chunk: &ChunkHead, next: usize) -> Option<Pending> {
        let stream = match chunk.kind {
            ChunkKind::Video => Stream::Video,
            ChunkKind::Audio => Stream::Audio,
            _ => return None,
        };
        (chunk.length > 0).then_some(Pending {
            stream,
            channel: chunk.channel,
            place: chunk.payload,
            left: chunk.length,
            mask: chunk.mask,
            given: 0,
            next,
        })
    }

    /// What is left after so many bytes more, where there is something.
    fn after(self, count: usize) -> Option<Pending> {
        let (place, left, given) = (self.place + count, self.left - count, self.given + count);
        (left > 0).then_some(Pending { place, left, given, ..self })
    }
}

impl Header {
    /// Of a film that is accepted so far. A name that is long is taken out of the window, not copied.
    fn of<R: Read>(film: &FilmReply, details: Details, chunks: usize, window: &mut Window<R>) -> Result<Header, Error> {
        const IN_FILM: u8 = 0;
        const LONG: usize = 64 << 10;
        let (start, end) = (film.name_start, film.name_start + film.name_length);
        let name = if film.name_source != IN_FILM {
            None
        } else if film.name_length > LONG {
            let mut name = window.take_beginning(chunks)?;
            name.truncate(end);
            name.drain(..start);
            Some(name)
        } else {
            Some(window.beginning(end)?[start..end].to_vec())
        };
        let video = Format {
            codec: (film.has_video_codec != 0).then_some(film.video_codec),
            kind: VideoKind::of(film.video_kind),
        };
        let audio = Format {
            codec: (film.has_audio_codec != 0).then_some(film.audio_codec),
            kind: AudioKind::of(film.audio_kind),
        };
        Ok(Header { name, video, audio: (film.has_audio != 0).then_some(audio), details })
    }
}

impl fmt::Debug for Part<'_> {
    fn fmt(&self, f: &mut fmt::Formatter) -> fmt::Result {
        f.debug_struct("Part")
            .field("stream", &self.stream)
            .field("channel", &self.channel)
            .field("bytes", &Bytes(self.bytes))
            .finish()
    }
}

impl fmt::Debug for Header {
    fn fmt(&self, f: &mut fmt::Formatter) -> fmt::Result {
        f.debug_struct("Header")
            .field("name", &self.name.as_deref().map(Bytes))
            .field("video", &self.video)
            .field("audio", &self.audio)
            .field("details", &self.details)
            .finish()
    }
}

impl<R> fmt::Debug for Reader<R> {
    fn fmt(&self, f: &mut fmt::Formatter) -> fmt::Result {
        f.debug_struct("Reader").field("header", &self.header).field("next", &self.next).finish_non_exhaustive()
    }
}

/// The chunks of a film that is read, one after the other. After an error there are no more.
pub struct ChunkHeads<'r, R> {
    reader: &'r mut Reader<R>,
    is_over: bool,
}

impl<R: Read> Iterator for ChunkHeads<'_, R> {
    type Item = Result<ChunkHead, Error>;

    fn next(&mut self) -> Option<Self::Item> {
        if self.is_over {
            return None;
        }
        let chunk = self.reader.next_chunk().transpose();
        self.is_over = !matches!(chunk, Some(Ok(_)));
        chunk
    }
}

/// One stream of a film, as a reader.
pub struct StreamReader<R> {
    reader: Reader<R>,
    stream: Stream,
    key: Option<u64>,
    /// A part of the stream, and what of it is not read yet.
    part: Vec<u8>,
    rest: std::ops::Range<usize>,
}

impl<R> StreamReader<R> {
    /// The film that it is a stream of.
    pub fn reader(&self) -> &Reader<R> {
        &self.reader
    }
}

impl<R: Read> Read for StreamReader<R> {
    fn read(&mut self, room: &mut [u8]) -> io::Result<usize> {
        while self.rest.is_empty() {
            match self.reader.next_part(self.key)? {
                None => return Ok(0),
                Some(part) if part.stream == self.stream => {
                    self.part.clear();
                    make_room(&mut self.part, part.bytes.len())?;
                    self.part.extend_from_slice(part.bytes);
                    self.rest = 0..self.part.len();
                }
                Some(_) => {}
            }
        }
        let count = room.len().min(self.rest.len());
        room[..count].copy_from_slice(&self.part[self.rest.start..][..count]);
        self.rest.start += count;
        Ok(count)
    }
}
