//! What the tables of a header say of the streams, beyond what reading a film takes from them.

use std::time::Duration;

use crate::tables::Cell;
use crate::{Reading, ffi};

/// What a film's header says of its streams beyond their codecs. A value is there where the header has it. Nothing in the
/// reading of a film depends on it, and it is not compared with the streams.
#[derive(Clone, Copy, PartialEq, Eq, Hash, Debug, Default)]
#[non_exhaustive]
pub struct Details {
    pub video: VideoDetails,
    pub audio: AudioDetails,
}

/// What the header says of the video.
#[derive(Clone, Copy, PartialEq, Eq, Hash, Debug, Default)]
#[non_exhaustive]
pub struct VideoDetails {
    /// In pixels, by the column `width`.
    pub width: Option<u64>,
    /// In pixels, by the column `height`.
    pub height: Option<u64>,
    /// By the columns `framerate_n` and `framerate_d`.
    pub frame_rate: Option<FrameRate>,
    /// By the column `total_frames`.
    pub frames: Option<u64>,
}

/// What the header says of the audio.
#[derive(Clone, Copy, PartialEq, Eq, Hash, Debug, Default)]
#[non_exhaustive]
pub struct AudioDetails {
    /// In Hz, by the column `sampling_rate`.
    pub sampling_rate: Option<u64>,
    /// Of one sample: 2 is stereo. By the column `num_channels`.
    pub channels: Option<u64>,
    /// Of each channel, by the column `total_samples`.
    pub samples: Option<u64>,
}

/// Frames per second, as a fraction; neither number is 0.
#[derive(Clone, Copy, PartialEq, Eq, Hash, Debug)]
pub struct FrameRate {
    numerator: u64,
    denominator: u64,
}

impl FrameRate {
    /// `None` where one of the numbers is 0.
    pub fn new(numerator: u64, denominator: u64) -> Option<FrameRate> {
        (numerator > 0 && denominator > 0).then_some(FrameRate { numerator, denominator })
    }

    pub fn numerator(self) -> u64 {
        self.numerator
    }

    pub fn denominator(self) -> u64 {
        self.denominator
    }
}

impl VideoDetails {
    /// How long the video is, by its frames and their rate.
    pub fn duration(&self) -> Option<Duration> {
        let rate = self.frame_rate?;
        duration(u128::from(self.frames?) * u128::from(rate.denominator), rate.numerator)
    }
}

impl AudioDetails {
    /// How long the audio is, by its samples and their rate.
    pub fn duration(&self) -> Option<Duration> {
        duration(self.samples?.into(), self.sampling_rate?)
    }
}

/// So many parts of a second, each of which is the reciprocal of a number. `None` where that is 0, or it takes too long.
fn duration(parts: u128, per_second: u64) -> Option<Duration> {
    let per_second = u128::from(per_second);
    let seconds = u64::try_from(parts.checked_div(per_second)?).ok()?;
    let nanoseconds = parts % per_second * 1_000_000_000 / per_second;
    Some(Duration::new(seconds, nanoseconds as u32))
}

impl Details {
    /// By the beginning of a film of so many bytes whose header is accepted, and lies in it with its tables.
    pub(crate) fn of(beginning: &[u8], total: usize, reading: Reading) -> Details {
        let tables = ffi::header_tables(beginning, total, reading.for_c()).tables;
        let first_row = |place| FirstRow { beginning, place, tables: reading.tables.for_c() };
        let (video, audio) = (first_row(tables.video), first_row(tables.audio));
        let rate = |numerator, denominator| FrameRate::new(video.number(numerator)?, video.number(denominator)?);
        Details {
            video: VideoDetails {
                width: video.number(b"width"),
                height: video.number(b"height"),
                frame_rate: rate(b"framerate_n", b"framerate_d"),
                frames: video.number(b"total_frames"),
            },
            audio: AudioDetails {
                sampling_rate: audio.number(b"sampling_rate"),
                channels: audio.number(b"num_channels"),
                samples: audio.number(b"total_samples"),
            },
        }
    }
}

/// The first row of a header's table. At place 0, where no table is, it has no cells.
struct FirstRow<'a> {
    beginning: &'a [u8],
    place: usize,
    tables: u8,
}

impl FirstRow<'_> {
    /// The number in a column, if it is one and not negative.
    fn number(&self, column: &[u8]) -> Option<u64> {
        match Cell::of(self.beginning, ffi::cell(self.beginning, self.place, column, 0, self.tables))? {
            Cell::Unsigned(number) => Some(number),
            Cell::Signed(number) => number.try_into().ok(),
            _ => None,
        }
    }
}
