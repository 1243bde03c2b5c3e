//! The original's builder, and what it stores of a film.

use std::io::Cursor;

use oracle::usm::builder::{UsmBuilder, access};

/// The builder cuts streams into payloads of so many bytes.
pub const PAYLOAD: usize = 65_536;

/// What the builder is given, but for a key.
#[derive(Clone, PartialEq, Eq, Debug)]
pub struct Film {
    pub name: String,
    pub video: Vec<u8>,
    pub audios: Vec<Vec<u8>>,
}

/// The container that the builder writes for a film.
pub fn build(film: &Film, key: Option<u64>) -> Vec<u8> {
    let mut builder = UsmBuilder::new(film.name.as_str()).video(film.video.clone());
    for audio in &film.audios {
        builder.add_audio(audio.clone());
    }
    if let Some(key) = key {
        builder = builder.encryption_key(key);
    }
    written(&builder, Vec::new())
}

/// The container of a film without a name and audio, whose video is so many zeros.
pub fn build_zeros(length: usize) -> Vec<u8> {
    written(&UsmBuilder::new("").video(vec![0; length]), Vec::with_capacity(length + length / 1024 + 1024))
}

fn written(builder: &UsmBuilder, room: Vec<u8>) -> Vec<u8> {
    let mut written = Cursor::new(room);
    builder.build(&mut written).expect("memory takes what is written");
    written.into_inner()
}

/// The film with its streams as the builder stores them: masked under a key, payload by payload.
pub fn stored(film: &Film, key: Option<u64>) -> Film {
    let Some(key) = key else { return film.clone() };
    let masked = |stream: &[u8], mask: fn(&[u8], u64) -> Vec<u8>| -> Vec<u8> {
        stream.chunks(PAYLOAD).flat_map(|payload| mask(payload, key)).collect()
    };
    Film {
        name: film.name.clone(),
        video: masked(&film.video, access::apply_video_mask),
        audios: film.audios.iter().map(|audio| masked(audio, access::apply_audio_mask)).collect(),
    }
}
