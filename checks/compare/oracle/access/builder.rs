
// Appended by checks/compare/run: the text above is as published.
/// The private methods, each behind a call that is never inlined into its caller.
pub mod access {
    use super::UsmBuilder;

    #[inline(never)]
    pub fn apply_video_mask(payload: &[u8], key: u64) -> Vec<u8> {
        UsmBuilder::new("").apply_video_mask(payload, key)
    }

    #[inline(never)]
    pub fn apply_audio_mask(payload: &[u8], key: u64) -> Vec<u8> {
        UsmBuilder::new("").apply_audio_mask(payload, key)
    }
}
