//! Films of the old builder, moved to films that can be read, and back.

use crate::ffi::{self, SizeReply};
use crate::sized::{fill, filled, size_of};
use crate::{Error, Refusal};

/// The codecs that a film's header gives. The old builder has none.
#[derive(Clone, Copy, PartialEq, Eq, Hash, Debug, Default)]
pub struct Codecs {
    pub video: Option<u32>,
    pub audio: Option<u32>,
}

impl Codecs {
    fn for_c(self) -> ffi::Codecs {
        ffi::Codecs {
            video_codec: self.video.unwrap_or(0),
            audio_codec: self.audio.unwrap_or(0),
            has_video_codec: self.video.is_some().into(),
            has_audio_codec: self.audio.is_some().into(),
        }
    }
}

/// Moves a film of the old builder, cridecoder's `UsmBuilder`, to one that can be read: what [`pack`](crate::pack) makes
/// of its name and streams. Payloads travel as they are stored, so no key is needed; [`extract`](crate::extract) takes
/// the one that the builder had. [`to_old`] gives the first film back, byte for byte (proved).
///
/// ```
/// use usm::{Codecs, Reading};
///
/// let old = std::fs::read("tests/old.usm")?;
/// let film = usm::from_old(&old, Codecs { video: Some(1), audio: Some(2) })?;
/// let song = usm::extract(&film, Reading::default(), Some(0x0123456789ABCDEF))?;
/// assert_eq!(song.video, std::fs::read("tests/song.video")?);
/// assert_eq!(usm::to_old(&film)?, old);
///
/// // There is one audio in a film.
/// let dubbed = std::fs::read("tests/old-dubbed.usm")?;
/// let error = usm::from_old(&dubbed, Codecs::default()).unwrap_err();
/// assert_eq!(error.refusal().unwrap().reason, usm::Reason::ManyAudios);
/// # Ok::<(), Box<dyn std::error::Error>>(())
/// ```
pub fn from_old(film: &[u8], codecs: Codecs) -> Result<Vec<u8>, Error> {
    filled(move_from(film, codecs))
}

/// The same into a vector, whose contents the new film replaces. Where it is refused the vector stays as it is.
pub fn from_old_into(film: &[u8], codecs: Codecs, moved: &mut Vec<u8>) -> Result<(), Error> {
    fill(moved, move_from(film, codecs))
}

/// The bytes of the film that [`from_old`] gives.
pub fn from_old_size(film: &[u8], codecs: Codecs) -> Result<usize, Refusal> {
    size_of(move_from(film, codecs))
}

/// Moves a film back to the old builder's, which is shorter. What can be moved is what [`from_old`] gives, and what
/// [`pack`](crate::pack) makes under a name that is UTF-8.
///
/// ```
/// let packed = usm::pack(usm::Streams::new(b"lark.usm", b"moving pictures"), None)?;
/// let old = usm::to_old(&packed)?;
/// assert_eq!(usm::from_old(&old, usm::Codecs::default())?, packed);
///
/// let error = usm::to_old(&std::fs::read("tests/song.usm")?).unwrap_err();
/// assert_eq!(error.refusal().unwrap().reason, usm::Reason::Foreign);
/// # Ok::<(), Box<dyn std::error::Error>>(())
/// ```
pub fn to_old(film: &[u8]) -> Result<Vec<u8>, Error> {
    filled(|moved| ffi::to_old(film, moved))
}

/// The same into a vector, whose contents the old film replaces. Where it is refused the vector stays as it is.
pub fn to_old_into(film: &[u8], moved: &mut Vec<u8>) -> Result<(), Error> {
    fill(moved, |moved| ffi::to_old(film, moved))
}

fn move_from(film: &[u8], codecs: Codecs) -> impl Fn(&mut Vec<u8>) -> SizeReply {
    move |moved| ffi::from_old(film, codecs.for_c(), moved)
}
