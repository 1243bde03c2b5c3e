//! How a container is read: audio, key, fallback name.

use crate::random::Random;

#[derive(Clone, Debug)]
pub struct Call {
    pub audio: bool,
    pub key: Option<u64>,
    pub fallback: Vec<u8>,
}

const KEYS: [Option<u64>; 4] = [None, Some(0), Some(u64::MAX), Some(0x0012_3456_789A_BCDE)];

/// Names whose stems are not plain: none, folders, endings, Shift-JIS, marks in front that name another encoding.
const FALLBACKS: [&[u8]; 16] = [
    b"",
    b"film.usm",
    b"folder/film.usm",
    b"folder/film.usm/",
    b"C:\\films\\film.usm",
    b".usm",
    b"..",
    b"/",
    b"a.b.c",
    b"a\0b.usm",
    b"\x83\x81\x83C\x83\x93.usm",
    b"\x83\\.usm",
    b"\xEF\xBB\xBFfilm.usm",
    b"\xFF\xFEf\0i\0",
    b"\xFF\xFF\xFF",
    b"\x80/\xA0.\xFD",
];

impl Call {
    /// Every choice with each other.
    pub fn every() -> Vec<Call> {
        let mut calls = Vec::new();
        for audio in [true, false] {
            for key in KEYS {
                calls.extend(FALLBACKS.map(|fallback| Call { audio, key, fallback: fallback.to_vec() }));
            }
        }
        calls
    }

    /// Two at random.
    pub fn some(random: &mut Random) -> Vec<Call> {
        let mut call = |audio| {
            let key = random.pick(&KEYS).map(|key| if random.one_in(2) { key } else { random.number() });
            Call { audio, key, fallback: random.pick(&FALLBACKS).to_vec() }
        };
        vec![call(true), call(false)]
    }

    pub fn plain(audio: u8) -> Call {
        Call { audio: audio != 0, key: None, fallback: Vec::new() }
    }
}
