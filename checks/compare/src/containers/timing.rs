//! Extraction beside the original's under one clock, with outputs that are allocated and with outputs that are lent.

use std::hint::black_box;
use std::io::Cursor;

use oracle::usm::extractor::extract_usm_to_memory;

use super::exports::{self, FilmReply, How, KeyBytes, ReadingBytes};
use super::large::{LONG, with_payloads};
use crate::clock::{clock, median};
use crate::goal::Goal;

const KEY: u64 = 0x0012_3456_789A_BCDE;
const SAMPLES: usize = 21;

/// The ratios to the original that are not to be exceeded.
const GOAL_ALLOCATED: f64 = 1.0;
const GOAL_LENT: f64 = 0.8;

/// The length of the payloads, and the names with a key and without one.
const CONTAINERS: [(usize, [&str; 2]); 2] = [(32_768, ["32k-key", "32k-plain"]), (512, ["512-key", "512-plain"])];

/// The medians for one container with or without a key, in nanoseconds for one call.
struct Medians {
    name: &'static str,
    allocated: f64,
    reserved: f64,
    lent: f64,
    rust: f64,
    goals: [Goal; 2],
}

/// Times all, and prints the ratios and the times.
pub fn run() -> Vec<Goal> {
    let mut all = Vec::new();
    for (payload, names) in CONTAINERS {
        let container = with_payloads(LONG, payload);
        for (name, key) in names.into_iter().zip([Some(KEY), None]) {
            all.push(medians(name, &container, key));
        }
    }
    print_ratios(&all);
    print_times(&all);
    all.into_iter().flat_map(|m| m.goals).collect()
}

/// All four in turns, forwards and backwards.
fn medians(name: &'static str, container: &[u8], key: Option<u64>) -> Medians {
    let [video, audio] = measure(container);
    let (mut video, mut audio) = (vec![1; video], vec![1; audio]);
    let mut samples = [const { Vec::new() }; 4];
    for turn in 0..SAMPLES {
        for step in 0..4 {
            let who = if turn % 2 == 0 { step } else { 3 - step };
            samples[who].push(match who {
                0 => clock(1, || allocated(container, key, measure(container))),
                1 => clock(1, || allocated(container, key, [container.len(); 2])),
                2 => clock(1, || lent(container, key, &mut video, &mut audio)),
                _ => clock(1, || rust(container, key)),
            });
        }
    }
    let goal = |what, at_most, ours| Goal::new(format!("{name}-{what}"), at_most, ours, &samples[3]);
    let goals = [goal("allocated", GOAL_ALLOCATED, &samples[0]), goal("lent", GOAL_LENT, &samples[2])];
    let [allocated, reserved, lent, rust] = samples.map(median);
    Medians { name, allocated, reserved, lent, rust, goals }
}

/// As the original does: allocated, filled and given back.
fn allocated(container: &[u8], key: Option<u64>, sizes: [usize; 2]) {
    accepted(exports::extract_to_new(black_box(container), how(key), sizes));
}

fn lent(container: &[u8], key: Option<u64>, video: &mut [u8], audio: &mut [u8]) {
    accepted(exports::extract(black_box(container), how(key), video, audio));
}

/// Every payload is taken.
pub const WITH_AUDIO: ReadingBytes = ReadingBytes { audio: 1, channel: 0, payloads: 0, tables: 0 };

fn how(key: Option<u64>) -> How<'static> {
    let key = KeyBytes { number: key.unwrap_or(0), given: key.is_some().into() };
    How { reading: WITH_AUDIO, key, fallback: &[] }
}

/// A container that is refused would be timed for nothing.
fn accepted(reply: FilmReply) {
    assert!(reply.number == 0, "a container for the clock has the reply {reply:?}");
    black_box(reply);
}

/// Both sizes, by a call without outputs.
pub fn measure(container: &[u8]) -> [usize; 2] {
    let reply = exports::extract(black_box(container), how(None), &mut [], &mut []);
    assert!(reply.number == 12, "a container for the clock is measured with {reply:?}");
    [reply.video_size, reply.audio_size]
}

fn rust(container: &[u8], key: Option<u64>) {
    let streams = extract_usm_to_memory(Cursor::new(black_box(container)), &[], key, true);
    black_box(streams.expect("a container for the clock is accepted"));
}

fn print_ratios(all: &[Medians]) {
    println!("NAME BYTES RATTLE/RUST");
    for m in all {
        println!("{}-allocated {LONG} {:.2}", m.name, m.allocated / m.rust);
        println!("{}-lent {LONG} {:.2}", m.name, m.lent / m.rust);
    }
}

fn print_times(all: &[Medians]) {
    println!("\nThe same in nanoseconds for one call");
    println!("NAME BYTES RATTLE-ALLOCATED RATTLE-RESERVED RATTLE-LENT RUST");
    for m in all {
        println!("{} {LONG} {:.0} {:.0} {:.0} {:.0}", m.name, m.allocated, m.reserved, m.lent, m.rust);
    }
}
