//! Writing a film beside a plain copy of as many bytes, in turns under one clock. Outputs are lent and warm.

use std::hint::black_box;

use super::exports::{Film, write};
use crate::clock::{clock, median};
use crate::goal::Goal;
use crate::random::Random;

const VIDEO: usize = 64 << 20;
const AUDIO: usize = 16 << 20;
const SAMPLES: usize = 31;

/// A film of 64 MiB of video and 16 MiB of ADX audio, without a key and with one.
pub fn run() -> Vec<Goal> {
    let mut goals = Vec::new();
    let mut random = Random(17);
    let (video, audio) = (random.bytes(VIDEO), random.bytes(AUDIO));
    println!("write: 64 MiB of video and 16 MiB of ADX audio, beside a plain copy of both streams; medians of {SAMPLES}");
    for (name, key, goal) in [("write-clear", None, 1.3), ("write-masked", Some(0x0012_3456_789A_BCDE), 1.6)] {
        let film = Film {
            name: b"film",
            video: &video,
            audio: Some(&audio),
            video_codec: Some(1),
            audio_codec: Some(2),
            key,
        };
        let mut out = vec![0; write(film, &mut []).size];
        let (mut ours, mut copies) = (Vec::new(), Vec::new());
        for _ in 0..SAMPLES {
            ours.push(clock(1, || {
                black_box(write(black_box(film), &mut out));
            }));
            copies.push(clock(1, || {
                out[..VIDEO].copy_from_slice(black_box(&video));
                out[VIDEO..VIDEO + AUDIO].copy_from_slice(black_box(&audio));
                black_box(&mut out);
            }));
        }
        goals.push(Goal::new(name.to_string(), goal, &ours, &copies));
        println!("  {name}: {:.2} ms, copy {:.2} ms", median(ours) / 1e6, median(copies) / 1e6);
    }
    goals
}
