//! The delivery profile: plain films.

use std::fmt;
use std::io::{Read, Seek};

use crate::{Error, Reader, Refusal, Stream, ffi};

/// The first chunk of a film that breaks a rule of the profile, and the first rule that it breaks.
#[derive(Clone, Copy, PartialEq, Eq, Hash, Debug)]
#[non_exhaustive]
pub struct Offence {
    pub rule: Rule,
    /// The chunk's start; the film's length where a stream has no end chunk.
    pub place: usize,
}

/// The rules of the profile, in their order. As text each is a few words about a chunk that breaks it.
#[derive(Clone, Copy, PartialEq, Eq, Hash, Debug)]
#[non_exhaustive]
pub enum Rule {
    /// 1: a chunk's header size is 0x18.
    HeaderSize,
    /// 2: a chunk's block size plus 8 is a multiple of 0x20.
    BlockSize,
    /// 3: a stream that is present is closed by exactly one end chunk, and none of its payloads comes after it.
    Closed(Stream),
    /// 4: a chunk begins with `@SFV` or `@SFA`.
    Letters,
}

/// Checks a film against the delivery profile; `None` where it is plain. What [`pack`](crate::pack) writes is plain
/// (proved).
///
/// ```
/// use usm::Rule;
///
/// let film = std::fs::read("tests/song.usm")?;
/// let offence = usm::profile(&film)?.unwrap();
/// assert_eq!((offence.rule, offence.place), (Rule::HeaderSize, 3104));
/// # Ok::<(), Box<dyn std::error::Error>>(())
/// ```
pub fn profile(film: &[u8]) -> Result<Option<Offence>, Refusal> {
    Offence::of(ffi::profile(film))
}

impl<R: Read + Seek> Reader<R> {
    /// Checks the film against the delivery profile, from its first chunk on, by steps; `None` where it is plain. The answer
    /// is that of [`profile`](crate::profile()) for the whole film (proved of the steps).
    ///
    /// The film should be read as it is by default: what is not taken is not checked, so another reading may accept a film
    /// that the default one refuses.
    ///
    /// ```
    /// use usm::{Reader, Reading, Rule};
    ///
    /// let film = std::fs::File::open("tests/song.usm")?;
    /// let offence = Reader::new(film, Reading::default())?.profile()?.unwrap();
    /// assert_eq!((offence.rule, offence.place), (Rule::HeaderSize, 3104));
    /// # Ok::<(), Box<dyn std::error::Error>>(())
    /// ```
    pub fn profile(&mut self) -> Result<Option<Offence>, Error> {
        self.rewind()?;
        let mut known = ffi::profile_begin(self.audio);
        while self.step_seen(false, |place, head| known = ffi::profile_step(head, place, known))?.is_some() {}
        Ok(Offence::of(ffi::profile_end(self.total(), known))?)
    }
}

impl Offence {
    /// What a reply says; `None` where the film is plain.
    pub(crate) fn of(reply: ffi::ProfileReply) -> Result<Option<Offence>, Refusal> {
        Refusal::check(reply.number, reply.refused_at, reply.unknown_type)?;
        let rule = match reply.rule {
            0 => return Ok(None),
            1 => Rule::HeaderSize,
            2 => Rule::BlockSize,
            3 => Rule::Closed(if reply.stream == 0 { Stream::Video } else { Stream::Audio }),
            _ => Rule::Letters,
        };
        Ok(Some(Offence { rule, place: reply.place }))
    }
}

impl Rule {
    /// Its number, from 1.
    pub fn number(self) -> u8 {
        match self {
            Rule::HeaderSize => 1,
            Rule::BlockSize => 2,
            Rule::Closed(_) => 3,
            Rule::Letters => 4,
        }
    }
}

impl fmt::Display for Rule {
    fn fmt(&self, f: &mut fmt::Formatter) -> fmt::Result {
        f.write_str(match self {
            Rule::HeaderSize => "its header size is not 0x18",
            Rule::BlockSize => "its block size plus 8 is no multiple of 0x20",
            Rule::Closed(Stream::Video) => "video is not closed by exactly one end chunk with no payload after it",
            Rule::Closed(Stream::Audio) => "audio is not closed by exactly one end chunk with no payload after it",
            Rule::Letters => "its letters are neither @SFV nor @SFA",
        })
    }
}
