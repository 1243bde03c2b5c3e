//! The exports and the original under one clock, in turns, beside a plain copy of as many bytes.

use std::hint::black_box;

use super::{exports, original};
use crate::clock::{clock, median};
use crate::goal::Goal;
use crate::random::Random;

const KEY: u64 = 0x0012_3456_789A_BCDE;

/// A function in both languages. Each call makes its key table from the key.
struct Timed {
    name: &'static str,
    rattle: fn(u64, &mut [u8]),
    rust: fn(u64, &mut [u8]),
}

const TIMED: [Timed; 3] = [
    Timed { name: "unmask_video", rattle: exports::unmask_video, rust: original::unmask_video },
    Timed { name: "mask_video", rattle: exports::mask_video, rust: masked_video_copy },
    Timed { name: "unmask_audio", rattle: exports::unmask_audio, rust: original::unmask_audio },
];

/// As published: the original masks a copy of its data, a new Vec at each call, and that is part of its time.
fn masked_video_copy(key: u64, payload: &mut [u8]) {
    black_box(original::masked_video_copy(key, payload));
}

/// How many samples are taken of a size, and how many calls make one sample.
struct Size {
    bytes: usize,
    samples: usize,
    calls: u32,
}

const SIZES: [Size; 4] = [
    Size { bytes: 576, samples: 151, calls: 4000 },
    Size { bytes: 4096, samples: 151, calls: 1500 },
    Size { bytes: 65_536, samples: 151, calls: 100 },
    Size { bytes: 67_108_864, samples: 31, calls: 1 },
];

#[derive(Clone, Copy)]
enum Who {
    Rattle,
    Rust,
    Copy,
}

/// All orders of the three, so that none always runs in the state that one other leaves.
const ORDERS: [[Who; 3]; 6] = [
    [Who::Rattle, Who::Rust, Who::Copy],
    [Who::Copy, Who::Rust, Who::Rattle],
    [Who::Rust, Who::Copy, Who::Rattle],
    [Who::Rattle, Who::Copy, Who::Rust],
    [Who::Copy, Who::Rattle, Who::Rust],
    [Who::Rust, Who::Rattle, Who::Copy],
];

/// The medians for one function and size, in nanoseconds for one call.
struct Medians {
    name: &'static str,
    bytes: usize,
    rattle: f64,
    rust: f64,
    copy: f64,
    goal: Option<Goal>,
}

/// Times every function at every size, and prints the ratios and the times.
pub fn run() -> Vec<Goal> {
    let longest = SIZES.iter().map(|size| size.bytes).max().unwrap_or(0);
    let mut payload = Random(3).bytes(longest);
    let mut spare = payload.clone();
    let mut all = Vec::new();
    for timed in &TIMED {
        for size in &SIZES {
            all.push(medians(timed, size, &mut payload[..size.bytes], &mut spare[..size.bytes]));
        }
    }
    print_ratios(&all);
    print_times(&all);
    all.into_iter().filter_map(|m| m.goal).collect()
}

fn medians(timed: &Timed, size: &Size, payload: &mut [u8], spare: &mut [u8]) -> Medians {
    let mut samples = [const { Vec::new() }; 3];
    for turn in 0..size.samples {
        for who in ORDERS[turn % ORDERS.len()] {
            samples[who as usize].push(sample(who, timed, size.calls, payload, spare));
        }
    }
    let at_most = goal(timed.name, size.bytes);
    let name = format!("{}-{}", timed.name, size.bytes);
    let goal = at_most.map(|at_most| Goal::new(name, at_most, &samples[0], &samples[1]));
    let [rattle, rust, copy] = samples.map(median);
    Medians { name: timed.name, bytes: size.bytes, rattle, rust, copy, goal }
}

fn sample(who: Who, timed: &Timed, calls: u32, payload: &mut [u8], spare: &mut [u8]) -> f64 {
    match who {
        Who::Rattle => clock(calls, || black_box(timed.rattle)(black_box(KEY), black_box(&mut *payload))),
        Who::Rust => clock(calls, || black_box(timed.rust)(black_box(KEY), black_box(&mut *payload))),
        Who::Copy => clock(calls, || black_box(&mut *spare).copy_from_slice(black_box(&*payload))),
    }
}

fn print_ratios(all: &[Medians]) {
    println!("NAME BYTES RATTLE/RUST RATTLE/COPY");
    for m in all {
        println!("{} {} {:.2} {:.2}", m.name, m.bytes, m.rattle / m.rust, m.rattle / m.copy);
    }
}

fn print_times(all: &[Medians]) {
    println!("\nThe same in nanoseconds for one call (mask_video: the original's time includes the copy that it makes)");
    println!("NAME BYTES RATTLE RUST COPY");
    for m in all {
        println!("{} {} {:.0} {:.0} {:.0}", m.name, m.bytes, m.rattle, m.rust, m.copy);
    }
}

/// The ratio to the original that is not to be exceeded. Below 64 KiB there is no goal.
fn goal(name: &str, bytes: usize) -> Option<f64> {
    match (name, bytes) {
        (_, ..65_536) => None,
        ("unmask_video", 65_536) => Some(0.9),
        _ => Some(1.05),
    }
}
