//! Steps beside a listing, and a payload or a piece of one unmasked beside the mask of the other library, in turns.

use std::hint::black_box;

use super::exports::{self, CHUNK, FilmAudio};
use crate::clock::{clock, median};
use crate::containers::answer::{Chunk, Kind};
use crate::containers::exports::{self as films, Record};
use crate::containers::large::{LONG, with_payloads};
use crate::containers::timing::WITH_AUDIO;
use crate::goal::Goal;
use crate::masks::exports as masks;
use crate::random::Random;

const KEY: u64 = 0x0012_3456_789A_BCDE;
/// The chunks of a container of 64 MiB with payloads of so many bytes: over 123,000.
const PAYLOAD: usize = 512;
const SAMPLES: usize = 51;
const WINDOW: usize = 45;
const GOAL_STEPS: f64 = 1.1;
const GOAL_CLEAR: f64 = 1.05;

/// A mask by its number, how it is taken away, and the function of the other library that does.
struct Mask {
    name: &'static str,
    number: u8,
    clear: fn(u64, u8, &mut [u8]),
    unmask: fn(u64, &mut [u8]),
}

const MASKS: [Mask; 4] = [
    Mask { name: "clear_video", number: 1, clear: exports::clear, unmask: masks::unmask_video },
    Mask { name: "clear_audio", number: 2, clear: exports::clear, unmask: masks::unmask_audio },
    Mask { name: "piece_video", number: 1, clear: clear_piece, unmask: masks::unmask_video },
    Mask { name: "piece_audio", number: 2, clear: clear_piece, unmask: masks::unmask_audio },
];

/// The bytes as the second of many pieces.
fn clear_piece(key: u64, mask: u8, piece: &mut [u8]) {
    let (length, row) = (piece.len(), [7; 32]);
    assert!(exports::clear_piece(key, mask, 100 * length, length, &row, piece), "{length} bytes are no piece");
}

/// The bytes of a payload, how many samples are taken of it, and how many calls make one.
const SIZES: [(usize, usize, u32); 3] = [(576, 151, 4000), (4096, 151, 1500), (65_536, 151, 100)];

/// Times all, and prints the ratios and the times.
pub fn run() -> Vec<Goal> {
    let mut goals = vec![steps_beside_a_listing()];
    println!("\nA payload unmasked, in nanoseconds for one call");
    println!("NAME BYTES CLEAR UNMASK CLEAR/UNMASK");
    for mask in &MASKS {
        for size in SIZES {
            goals.extend(clear_beside_unmask(mask, size));
        }
    }
    goals
}

/// A walk over all chunks of a container in memory, by steps and by a listing into a list that is there already.
fn steps_beside_a_listing() -> Goal {
    let container = with_payloads(LONG, PAYLOAD);
    let count = films::list(&container, WITH_AUDIO, &mut []).count;
    let nothing = films::record(&Chunk { start: 0, kind: Kind::Other, data_type: 0, channel: 0, length: 0 });
    let mut records = vec![nothing; count];
    let mut samples = [const { Vec::new() }; 2];
    for turn in 0..SAMPLES {
        for step in 0..2 {
            let who = (turn + step) % 2;
            samples[who].push(match who {
                0 => clock(1, || walk(&container, count)),
                _ => clock(1, || list(&container, &mut records)),
            });
        }
    }
    let goal = Goal::new("steps".to_string(), GOAL_STEPS, &samples[0], &samples[1]);
    let [steps, listing] = samples.map(median);
    println!("{count} chunks in memory, in nanoseconds for a chunk");
    println!("STEPS LISTING STEPS/LISTING");
    println!("{:.1} {:.1} {:.2}", steps / count as f64, listing / count as f64, steps / listing);
    goal
}

/// The header by all bytes, then a step for each chunk.
fn walk(container: &[u8], count: usize) {
    let opened = exports::open(black_box(container), container.len(), WITH_AUDIO);
    let audio = FilmAudio::of(opened.film);
    let (mut place, mut steps) = (opened.chunks, 0);
    loop {
        let rest = &container[place..];
        let window = &rest[..WINDOW.min(rest.len())];
        let step = exports::step(window, place, container.len(), WITH_AUDIO, audio);
        if step.found != CHUNK {
            break;
        }
        steps += 1;
        place = black_box(step).next;
    }
    assert!(steps == count, "a container for the clock has {steps} steps");
}

fn list(container: &[u8], records: &mut [Record]) {
    let reply = films::list(black_box(container), WITH_AUDIO, records);
    assert!(reply.number == 0, "a container for the clock is listed with {reply:?}");
    black_box(records);
}

/// Below 64 KiB there is no goal: a call takes some nanoseconds more there, to find the mask by its number.
fn clear_beside_unmask(mask: &Mask, (bytes, count, calls): (usize, usize, u32)) -> Option<Goal> {
    let mut payload = Random(3).bytes(bytes);
    let mut samples = [const { Vec::new() }; 2];
    for turn in 0..count {
        for step in 0..2 {
            let who = (turn + step) % 2;
            samples[who].push(match who {
                0 => clock(calls, || {
                    black_box(mask.clear)(black_box(KEY), black_box(mask.number), black_box(&mut payload))
                }),
                _ => clock(calls, || black_box(mask.unmask)(black_box(KEY), black_box(&mut payload))),
            });
        }
    }
    let goal = Goal::new(format!("{}-{bytes}", mask.name), GOAL_CLEAR, &samples[0], &samples[1]);
    let [clear, unmask] = samples.map(median);
    println!("{} {bytes} {clear:.0} {unmask:.0} {:.2}", mask.name, clear / unmask);
    (bytes >= 65_536).then_some(goal)
}
