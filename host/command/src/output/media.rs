//! What a film's header says of its streams, for people: codecs by name, rates and durations.

use std::time::Duration;

use usm::{AudioDetails, FrameRate, VideoDetails};

use crate::output::numbers::counted;

/// The name of a video codec, where it is known.
pub fn video_codec(codec: u32) -> Option<&'static str> {
    match codec {
        1 => Some("MPEG"),
        5 => Some("H.264"),
        9 => Some("VP9"),
        _ => None,
    }
}

/// The name of an audio codec, where it is known.
pub fn audio_codec(codec: u32) -> Option<&'static str> {
    match codec {
        2 => Some("ADX"),
        4 => Some("HCA"),
        _ => None,
    }
}

/// What the header says of the video, in one line; `None` where it says nothing.
pub fn video(details: &VideoDetails) -> Option<String> {
    joined([
        details.width.zip(details.height).map(|(width, height)| format!("{width} x {height} pixels")),
        details.frame_rate.map(|rate| format!("{} frames/s", frames_per_second(rate))),
        details.frames.map(|frames| counted(frames, "frame")),
        details.duration().map(clock_time),
    ])
}

/// What the header says of the audio, likewise.
pub fn audio(details: &AudioDetails) -> Option<String> {
    joined([
        details.sampling_rate.map(|rate| format!("{rate} Hz")),
        details.channels.map(|channels| match channels {
            1 => "mono".to_string(),
            2 => "stereo".to_string(),
            channels => counted(channels, "channel"),
        }),
        details.samples.map(|samples| counted(samples, "sample")),
        details.duration().map(clock_time),
    ])
}

fn joined<const COUNT: usize>(parts: [Option<String>; COUNT]) -> Option<String> {
    let parts: Vec<String> = parts.into_iter().flatten().collect();
    (!parts.is_empty()).then(|| parts.join(", "))
}

/// To three places, without zeros at the end.
fn frames_per_second(rate: FrameRate) -> String {
    let (frames, seconds) = (u128::from(rate.numerator()), u128::from(rate.denominator()));
    let thousandths = (frames * 1000 + seconds / 2) / seconds;
    let text = format!("{}.{:03}", thousandths / 1000, thousandths % 1000);
    text.trim_end_matches('0').trim_end_matches('.').to_string()
}

/// Hours, minutes, seconds and thousandths, as players show it.
fn clock_time(duration: Duration) -> String {
    let seconds = duration.as_secs();
    let (hours, minutes) = (seconds / 3600, seconds / 60 % 60);
    format!("{hours}:{minutes:02}:{:02}.{:03}", seconds % 60, duration.subsec_millis())
}

#[cfg(test)]
mod tests {
    use std::time::Duration;

    use usm::FrameRate;

    use super::{clock_time, frames_per_second};

    #[test]
    fn rates_have_three_places_at_most() {
        let shown = |numerator, denominator| frames_per_second(FrameRate::new(numerator, denominator).unwrap());
        assert_eq!(shown(29970, 1000), "29.97");
        assert_eq!(shown(30000, 1001), "29.97");
        assert_eq!(shown(60, 1), "60");
        assert_eq!(shown(600, 1), "600");
        assert_eq!(shown(1, 3), "0.333");
        assert_eq!(shown(u64::MAX, 1), "18446744073709551615");
    }

    #[test]
    fn durations_are_clock_times() {
        assert_eq!(clock_time(Duration::from_millis(10_010)), "0:00:10.010");
        assert_eq!(clock_time(Duration::from_millis(3_725_999)), "1:02:05.999");
        assert_eq!(clock_time(Duration::from_secs(360_000)), "100:00:00.000");
    }
}
