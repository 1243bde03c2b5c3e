//! Compares the exports of libplayer.a and libusm.a with the original Rust. `checks/compare/run` builds and calls it:
//!   compare check [PART..]      every answer against the original's; a part is masks, tables, containers,
//!                               pieces, writes or moves
//!   compare time [PART..]       both under one clock
//!   compare record FOLDER       the original's answers for the replay programs, in this folder of crates
//!   compare films               films of the original's builder, for checks/records/moves.py
//! It calls itself for what may take gigabytes: compare ask AUDIO.

mod clock;
mod damage;
// The crate's own declarations: `checks/compare/run` puts host/usm/src/ffi.rs beside this file. Its safe calls are for films
// and vectors of the crate; the comparison makes its own.
#[allow(dead_code)]
mod ffi;
mod goal;
mod hex;
mod panics;
mod progress;
mod random;
mod reply;
mod shrink;

mod masks {
    pub mod arena;
    pub mod check;
    pub mod exports;
    pub mod original;
    pub mod record;
    pub mod timing;
}

mod tables {
    pub mod answer;
    pub mod case;
    pub mod check;
    pub mod columns;
    pub mod compare;
    pub mod damage;
    pub mod domain;
    pub mod exports;
    pub mod generate;
    pub mod header;
    pub mod hostile;
    pub mod layout;
    pub mod numbers;
    pub mod original;
    pub mod pointers;
    pub mod queries;
    pub mod record;
    pub mod samples;
    pub mod shape;
    pub mod shrink;
    pub mod sketch;
    pub mod tally;
    pub mod timing;
    pub mod zero_columns;
}

mod containers {
    pub mod answer;
    pub mod batch;
    pub mod call;
    pub mod case;
    pub mod check;
    pub mod child;
    pub mod choices;
    pub mod compare;
    pub mod damage;
    pub mod domain;
    pub mod expected;
    pub mod exports;
    pub mod film;
    pub mod generate;
    pub mod header_tables;
    pub mod hostile;
    pub mod large;
    pub mod mistakes;
    pub mod original;
    pub mod outputs;
    pub mod record;
    pub mod rules;
    pub mod samples;
    pub mod script;
    pub mod shrink;
    pub mod table_rules;
    pub mod tally;
    pub mod timing;
    pub mod walk_timing;
    pub mod watch;
    pub mod work;
}

mod pieces {
    pub mod bits;
    pub mod check;
    pub mod compare;
    pub mod exports;
    pub mod reader;
    pub mod tally;
    pub mod timing;
}

mod writes {
    pub mod check;
    pub mod exports;
    pub mod timing;
}

mod moves {
    pub mod check;
    pub mod compare;
    pub mod container;
    pub mod damage;
    pub mod exports;
    pub mod generate;
    pub mod limits;
    pub mod names;
    pub mod original;
    pub mod parts;
    pub mod record;
    pub mod shrink;
    pub mod tally;
    pub mod timing;
}

use std::fmt::Display;
use std::io;
use std::path::Path;
use std::process::ExitCode;

use goal::Goal;
use progress::say;

/// What is compared: the check, the timing, and the record for the gate's replay, where the original answers.
struct Part {
    name: &'static str,
    check: fn() -> bool,
    time: fn() -> Vec<Goal>,
    record: Option<fn(&Path) -> io::Result<()>>,
}

static PARTS: [Part; 6] = [
    Part {
        name: "masks",
        check: || report(masks::check::run(), |agreed| println!("{agreed} comparisons agreed")),
        time: masks::timing::run,
        record: Some(masks::record::write),
    },
    Part {
        name: "tables",
        check: || report(tables::check::run(), |tally| tally.print()),
        time: tables::timing::run,
        record: Some(tables::record::write),
    },
    Part {
        name: "containers",
        check: || {
            report(containers::check::run(), |tally| tally.print())
                && report(containers::choices::run(), |agreed| {
                    println!("{} readings of one channel and {} after their headers agreed", agreed.channels, agreed.payloads)
                })
        },
        time: || {
            let goals = containers::timing::run();
            println!();
            containers::walk_timing::run();
            goals
        },
        record: Some(containers::record::write),
    },
    Part {
        name: "pieces",
        check: || report(pieces::check::run(), |tally| tally.print()),
        time: pieces::timing::run,
        record: None,
    },
    Part {
        name: "writes",
        check: || report(writes::check::run(), |agreed| println!("{agreed} films that we wrote agreed")),
        time: writes::timing::run,
        record: None,
    },
    Part {
        name: "moves",
        check: || report(moves::check::run(), |tally| tally.print()),
        time: || {
            moves::timing::run();
            Vec::new()
        },
        record: None,
    },
];

fn main() -> ExitCode {
    let words: Vec<String> = std::env::args().skip(1).collect();
    let words: Vec<&str> = words.iter().map(String::as_str).collect();
    match words[..] {
        ["check", ref names @ ..] if known(names) => status(chosen(names).all(check)),
        ["time", ref names @ ..] if known(names) => {
            goal::print(&chosen(names).flat_map(best_time).collect::<Vec<_>>());
            ExitCode::SUCCESS
        }
        ["record", folder] => status(PARTS.iter().all(|part| record(part, Path::new(folder)))),
        ["films"] => {
            moves::record::print();
            ExitCode::SUCCESS
        }
        ["ask", audio] => status(containers::child::answer(audio == "1").is_ok()),
        _ => {
            eprintln!("compare check [PART..] | compare time [PART..] | compare record FOLDER | compare films");
            ExitCode::from(2)
        }
    }
}

fn known(names: &[&str]) -> bool {
    names.iter().all(|name| PARTS.iter().any(|part| part.name == *name))
}

/// The parts of these names, or all where none is named.
fn chosen(names: &[&str]) -> impl Iterator<Item = &'static Part> {
    PARTS.iter().filter(|part| names.is_empty() || names.contains(&part.name))
}

fn check(part: &Part) -> bool {
    say(&format!("checking {}", part.name));
    (part.check)()
}

/// A part that misses a goal is timed so often at most.
const RUNS: usize = 3;

/// The goals of a part, with the ratios of the best of its runs.
fn best_time(part: &Part) -> Vec<Goal> {
    let mut goals = time(part);
    for _ in 1..RUNS {
        if goals.iter().any(Goal::is_missed) {
            goals = goals.into_iter().zip(time(part)).map(|(goal, again)| goal.or(again)).collect();
        }
    }
    goals
}

/// The goals of a part, with their ratios; its table is printed before.
fn time(part: &Part) -> Vec<Goal> {
    say(&format!("timing {}", part.name));
    let goals = (part.time)();
    println!();
    goals
}

fn status(success: bool) -> ExitCode {
    if success { ExitCode::SUCCESS } else { ExitCode::FAILURE }
}

/// Prints what a check has counted, or where it found a difference.
fn report<T>(checked: Result<T, impl Display>, print: fn(T)) -> bool {
    match checked {
        Ok(counted) => {
            print(counted);
            true
        }
        Err(disagreement) => {
            println!("DISAGREEMENT: {disagreement}");
            false
        }
    }
}

/// Writes `stdin` and `stdout` of a part's replay program, whose folder is gate_NAME.
fn record(part: &Part, crates: &Path) -> bool {
    let Some(write) = part.record else { return true };
    let folder = crates.join(format!("gate_{}", part.name));
    match write(&folder) {
        Ok(()) => {
            println!("recorded: {0}/stdin and {0}/stdout", folder.display());
            true
        }
        Err(error) => {
            eprintln!("{}: {error}", folder.display());
            false
        }
    }
}
