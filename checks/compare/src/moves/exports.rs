//! The two functions of libusm.a that move films of the old builder, behind safe calls.

use crate::ffi::{Codecs as CodecsBytes, SizeReply, usm_from_old, usm_to_old};

/// The codecs of a film, where they are given.
#[derive(Clone, Copy, PartialEq, Eq, Debug)]
pub struct Codecs {
    pub video: Option<u32>,
    pub audio: Option<u32>,
}

pub const NO_CODECS: Codecs = Codecs { video: None, audio: None };

/// The number beside a codec that is not given, which nobody looks at.
const IDLE: u32 = 0xA5A5_A5A5;

// SAFETY, for both calls: each pointer and length are those of one slice, lent to this call.

pub fn from_old(container: &[u8], codecs: Codecs, out: &mut [u8]) -> SizeReply {
    let codecs = CodecsBytes {
        video_codec: codecs.video.unwrap_or(IDLE),
        audio_codec: codecs.audio.unwrap_or(IDLE),
        has_video_codec: codecs.video.is_some().into(),
        has_audio_codec: codecs.audio.is_some().into(),
    };
    unsafe { usm_from_old(container.as_ptr(), container.len(), codecs, out.as_mut_ptr(), out.len()) }
}

pub fn to_old(container: &[u8], out: &mut [u8]) -> SizeReply {
    unsafe { usm_to_old(container.as_ptr(), container.len(), out.as_mut_ptr(), out.len()) }
}
