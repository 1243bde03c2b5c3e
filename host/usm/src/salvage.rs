//! What is left of a film that was cut.

use std::fmt;

use crate::debug::Bytes;
use crate::refusal::Reason;
use crate::{Refusal, ffi};

/// The beginning of a film that can be extracted.
#[derive(Clone, Copy, PartialEq, Eq)]
#[non_exhaustive]
pub struct Salvaged<'a> {
    /// The whole film where it is accepted.
    pub film: &'a [u8],
    /// The bytes that are dropped.
    pub dropped: usize,
    /// Why the film itself is refused; `None` where it is accepted.
    pub cause: Option<Reason>,
}

/// The longest beginning of a film that [`extract`](crate::extract) accepts with all audio, of those that end at a
/// chunk's start. A damaged header is not mended.
///
/// ```
/// let film = std::fs::read("tests/song.usm")?;
/// let salvaged = usm::salvage(&film[..2000])?;
/// assert_eq!(salvaged.film, &film[..1792]);
/// assert_eq!(salvaged.dropped, 208);
/// assert_eq!(salvaged.cause, Some(usm::Reason::RanOut));
/// # Ok::<(), Box<dyn std::error::Error>>(())
/// ```
pub fn salvage(film: &[u8]) -> Result<Salvaged<'_>, Refusal> {
    let reply = ffi::salvage(film);
    Refusal::check(reply.number, reply.refused_at, reply.unknown_type)?;
    let cause = (reply.cause != 0).then(|| Reason::of(reply.cause, 0));
    Ok(Salvaged { film: &film[..reply.kept], dropped: reply.dropped, cause })
}

impl fmt::Debug for Salvaged<'_> {
    fn fmt(&self, f: &mut fmt::Formatter) -> fmt::Result {
        f.debug_struct("Salvaged")
            .field("film", &Bytes(self.film))
            .field("dropped", &self.dropped)
            .field("cause", &self.cause)
            .finish()
    }
}
