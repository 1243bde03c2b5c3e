//! The codecs that a film to be written says it has.

use clap::Args;

#[derive(Args)]
pub struct Codecs {
    /// The video's codec, a number; 9 is VP9
    #[arg(long, value_name = "NUMBER")]
    pub video_codec: Option<u32>,
    /// The audio's codec, a number; 2 is ADX, 4 is HCA
    #[arg(long, value_name = "NUMBER")]
    pub audio_codec: Option<u32>,
}
