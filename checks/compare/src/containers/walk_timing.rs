//! Measuring, counting and listing as many chunks in a short container and in a long one: the cost goes with the
//! chunks, not with the bytes.

use std::hint::black_box;

use super::answer::{Chunk, Kind};
use super::exports::{self, ListReply, Record};
use super::large::{LONG, SHORT, with_count};
use super::timing::{WITH_AUDIO, measure};
use crate::clock::{clock, median};

const COUNT: usize = 1000;
const SAMPLES: usize = 31;
const CALLS: u32 = 50;

/// Goes over the chunks of a container, with a list to fill.
type Walk = fn(&[u8], &mut [Record]);

const WALKS: [(&str, Walk); 3] = [("measure", sizes), ("count", count), ("usm_list", list)];

/// Times all, and prints the times.
pub fn run() {
    let [short, long] = [SHORT, LONG].map(|bytes| with_count(bytes, COUNT));
    let nothing = exports::record(&Chunk { start: 0, kind: Kind::Other, data_type: 0, channel: 0, length: 0 });
    let mut records = vec![nothing; COUNT + 1];
    println!("{} chunks in containers of two lengths, in nanoseconds for one call", COUNT + 1);
    println!("NAME {SHORT} {LONG}");
    for (name, walk) in WALKS {
        let mut samples = [const { Vec::new() }; 2];
        for _ in 0..SAMPLES {
            samples[0].push(clock(CALLS, || walk(&short, &mut records)));
            samples[1].push(clock(CALLS, || walk(&long, &mut records)));
        }
        let [short, long] = samples.map(median);
        println!("{name} {short:.0} {long:.0}");
    }
}

fn sizes(container: &[u8], _: &mut [Record]) {
    black_box(measure(container));
}

/// By a call without a list.
fn count(container: &[u8], _: &mut [Record]) {
    let reply = exports::list(black_box(container), WITH_AUDIO, &mut []);
    assert!(reply == ListReply::too_short(COUNT + 1), "a container for the clock is counted with {reply:?}");
}

fn list(container: &[u8], records: &mut [Record]) {
    let reply = exports::list(black_box(container), WITH_AUDIO, records);
    assert!(reply == ListReply::counted(COUNT + 1), "a container for the clock is listed with {reply:?}");
    black_box(records);
}
