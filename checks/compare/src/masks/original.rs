//! The original Rust's functions, in the shapes of the exports.

use oracle::usm::{builder, extractor};

/// T, V and A, 32 bytes each, one after the other.
pub fn table(key: u64) -> [u8; 96] {
    let ((t, v), a) = extractor::access::get_mask(key);
    let mut table = [0; 96];
    table[..32].copy_from_slice(&t);
    table[32..64].copy_from_slice(&v);
    table[64..].copy_from_slice(&a);
    table
}

/// What the export must give: the original's table in the first 96 bytes, or a short buffer unchanged.
pub fn key_table(key: u64, buffer: &mut [u8]) -> usize {
    match buffer.get_mut(..96) {
        Some(place) => {
            place.copy_from_slice(&table(key));
            96
        }
        None => 0,
    }
}

pub fn unmask_video(key: u64, payload: &mut [u8]) {
    extractor::access::mask_video(payload, key);
}

pub fn unmask_audio(key: u64, payload: &mut [u8]) {
    extractor::access::mask_audio(payload, key);
}

pub fn mask_video(key: u64, payload: &mut [u8]) {
    payload.copy_from_slice(&masked_video_copy(key, payload));
}

pub fn mask_audio(key: u64, payload: &mut [u8]) {
    payload.copy_from_slice(&builder::access::apply_audio_mask(payload, key));
}

/// As published: the builder makes the key table and masks a copy of the payload.
pub fn masked_video_copy(key: u64, payload: &[u8]) -> Vec<u8> {
    builder::access::apply_video_mask(payload, key)
}
