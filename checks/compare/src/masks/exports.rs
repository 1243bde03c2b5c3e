//! The five functions of libplayer.a, behind safe calls.

use std::ptr::null_mut;

use crate::ffi::{usm_key_table, usm_mask_audio, usm_mask_video, usm_unmask_audio, usm_unmask_video};

// SAFETY, for the five calls below: pointer and length are those of one slice lent to this call alone.

pub fn key_table(key: u64, table: &mut [u8]) -> usize {
    unsafe { usm_key_table(key, table.as_mut_ptr(), table.len()) }
}

pub fn unmask_video(key: u64, payload: &mut [u8]) {
    unsafe { usm_unmask_video(key, payload.as_mut_ptr(), payload.len()) }
}

pub fn mask_video(key: u64, payload: &mut [u8]) {
    unsafe { usm_mask_video(key, payload.as_mut_ptr(), payload.len()) }
}

pub fn unmask_audio(key: u64, payload: &mut [u8]) {
    unsafe { usm_unmask_audio(key, payload.as_mut_ptr(), payload.len()) }
}

pub fn mask_audio(key: u64, payload: &mut [u8]) {
    unsafe { usm_mask_audio(key, payload.as_mut_ptr(), payload.len()) }
}

/// Calls all five with NULL and length 0, which usm.h allows; gives what the key table answers.
pub fn all_with_null(key: u64) -> usize {
    // SAFETY: nothing is read or written through a pointer with length 0.
    unsafe {
        usm_unmask_video(key, null_mut(), 0);
        usm_mask_video(key, null_mut(), 0);
        usm_unmask_audio(key, null_mut(), 0);
        usm_mask_audio(key, null_mut(), 0);
        usm_key_table(key, null_mut(), 0)
    }
}
