//! Moving a film both ways beside a plain copy of its video, in turns under one clock. Outputs are lent and warm.

use std::hint::black_box;

use super::exports::{Codecs, from_old, to_old};
use super::original::{Film, build};
use crate::clock::{clock, median};
use crate::random::Random;

const VIDEO: usize = 64 << 20;
const AUDIO: usize = 16 << 20;
const SAMPLES: usize = 15;

/// A film of 64 MiB of video and 16 MiB of audio. There is no goal.
pub fn run() {
    let mut random = Random(19);
    let film = Film { name: "film".to_string(), video: random.bytes(VIDEO), audios: vec![random.bytes(AUDIO)] };
    let mut old = build(&film, None);
    let codecs = Codecs { video: Some(1), audio: Some(2) };
    let mut new = vec![0; from_old(&old, codecs, &mut []).size];
    let mut copy = vec![0; VIDEO + AUDIO];
    let mut samples = [const { Vec::new() }; 3];
    for _ in 0..SAMPLES {
        samples[0].push(clock(1, || {
            black_box(from_old(black_box(&old), codecs, &mut new));
        }));
        samples[1].push(clock(1, || {
            black_box(to_old(black_box(&new), &mut old));
        }));
        samples[2].push(clock(1, || {
            copy[..VIDEO].copy_from_slice(black_box(&film.video));
            copy[VIDEO..].copy_from_slice(black_box(&film.audios[0]));
            black_box(&mut copy);
        }));
    }
    let [from, to, copy] = samples.map(|samples| median(samples) / 1e6);
    println!("moves: 64 MiB of video and 16 MiB of audio, beside a plain copy of both streams; medians of {SAMPLES}");
    println!("  from-old: {from:.2} ms, to-old: {to:.2} ms, copy {copy:.2} ms");
}
