//! Hostile tables under the clock, against the same tables with empty texts: ours at 1 MiB, the original at 64 KiB.

use std::hint::black_box;
use std::time::Instant;

use oracle::usm::extractor::access;

use super::exports;
use super::hostile::{Pair, pairs};
use crate::clock::{clock, median};
use crate::goal::Goal;

/// The ratio of hostile to plain that is not to be exceeded.
const AT_MOST: f64 = 3.0;
/// A sample lasts about as long, or one call.
const SAMPLE_NANOSECONDS: f64 = 2_000_000.0;
/// Fewer where one call makes a sample.
const SAMPLES: usize = 31;
const SAMPLES_OF_ONE_CALL: usize = 15;

/// Reads a table and drops what it has read.
type Read = fn(&[u8]);

/// The medians for one pair of tables, in nanoseconds for one call.
struct Medians {
    name: &'static str,
    bytes: usize,
    hostile: f64,
    plain: f64,
    goal: Goal,
}

/// Times all, and prints the ratios and the times. The goals are those of our large tables.
pub fn run() -> Vec<Goal> {
    let large = pairs(1 << 20, 256);
    let small = pairs(1 << 16, 64);
    let ours = large.each_ref().map(|pair| medians(pair, rattle));
    println!("NAME BYTES HOSTILE/PLAIN");
    print_ratios(&ours);
    println!("\nThe same in nanoseconds for one call");
    println!("NAME BYTES HOSTILE PLAIN");
    print_times(&ours);

    let small_ours = small.each_ref().map(|pair| medians(pair, rattle));
    let originals = small.each_ref().map(|pair| medians(pair, rust));
    println!("\nSmaller tables (4096 cells, 64 names, 64 constants), in nanoseconds for one call");
    println!("NAME BYTES RATTLE-HOSTILE RATTLE-PLAIN RUST-HOSTILE RUST-PLAIN RUST-HOSTILE/RUST-PLAIN");
    for (ours, original) in small_ours.iter().zip(&originals) {
        print!("{} {} {:.0} {:.0} ", ours.name, ours.bytes, ours.hostile, ours.plain);
        println!("{:.0} {:.0} {:.2}", original.hostile, original.plain, original.hostile / original.plain);
    }
    ours.into_iter().map(|m| m.goal).collect()
}

/// usm_table. A table that is refused would be timed for nothing.
fn rattle(table: &[u8]) {
    let reply = exports::table(black_box(table), 0);
    assert!(reply.number == 0, "a table for the clock has the reply {reply:?}");
    black_box(reply);
}

fn rust(table: &[u8]) {
    let table = access::get_utf_table(black_box(table), 0);
    black_box(table.expect("a table for the clock is accepted"));
}

/// Both tables in turns.
fn medians(pair: &Pair, read: Read) -> Medians {
    let [hostile_calls, plain_calls] = [&pair.hostile, &pair.plain].map(|table| calls(table, read));
    let samples = if hostile_calls == 1 { SAMPLES_OF_ONE_CALL } else { SAMPLES };
    let (mut hostile, mut plain) = (Vec::new(), Vec::new());
    for _ in 0..samples {
        hostile.push(clock(hostile_calls, || read(&pair.hostile)));
        plain.push(clock(plain_calls, || read(&pair.plain)));
    }
    let goal = Goal::new(format!("hostile-{}", pair.name), AT_MOST, &hostile, &plain);
    Medians { name: pair.name, bytes: pair.bytes, hostile: median(hostile), plain: median(plain), goal }
}

/// How many calls make one sample.
fn calls(table: &[u8], read: Read) -> u32 {
    let start = Instant::now();
    read(table);
    let once = start.elapsed().as_nanos() as f64;
    (SAMPLE_NANOSECONDS / once).clamp(1.0, 100_000.0) as u32
}

fn print_ratios(all: &[Medians]) {
    for m in all {
        println!("{} {} {:.2}", m.name, m.bytes, m.hostile / m.plain);
    }
}

fn print_times(all: &[Medians]) {
    for m in all {
        println!("{} {} {:.0} {:.0}", m.name, m.bytes, m.hostile, m.plain);
    }
}
