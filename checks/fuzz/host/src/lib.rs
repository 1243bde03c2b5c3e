//! Harnesses for libFuzzer over what the host reads: films from a reader, words that are typed, names that films have,
//! holdings and ledgers. Which one runs, the program's name says. A difference is a panic.

// The command's own modules, as its main.rs has them; not everything of them is called here.
#![allow(dead_code, unused_imports, unused_macros)]

#[path = "../../../../host/command/src/commands/mod.rs"]
mod commands;
#[path = "../../../../host/command/src/files/mod.rs"]
mod files;
#[path = "../../../../host/command/src/options/mod.rs"]
mod options;
#[path = "../../../../host/command/src/output/mod.rs"]
mod output;
#[path = "../../../../host/command/src/run/mod.rs"]
mod run;
#[path = "../../../../host/command/src/sharing/mod.rs"]
mod sharing;

mod bills;
mod house;
mod ledgers;
mod names;
mod reader;
mod typed;

use std::ffi::{CStr, c_char, c_int};
use std::path::Path;
use std::slice;
use std::sync::OnceLock;

/// The command's arguments, which its completions ask for; here it has none.
#[derive(clap::Parser)]
struct Arguments {}

type Harness = Box<dyn Fn(&[u8]) + Send + Sync>;

static HARNESS: OnceLock<Harness> = OnceLock::new();

fn harness(name: &str) -> Harness {
    match name {
        "reader" => Box::new(reader::fuzz),
        "typed" => typed::harness(),
        "names" => Box::new(names::fuzz),
        "bills" => bills::harness(),
        "ledgers" => ledgers::harness(),
        name => panic!("no harness {name}"),
    }
}

/// # Safety
///
/// libFuzzer calls it once, with the words of the command line.
#[unsafe(no_mangle)]
pub unsafe extern "C" fn LLVMFuzzerInitialize(_: *mut c_int, words: *mut *mut *mut c_char) -> c_int {
    let program = unsafe { CStr::from_ptr(**words) }.to_string_lossy();
    let name = Path::new(program.as_ref()).file_name().unwrap_or_default().to_string_lossy();
    HARNESS.get_or_init(|| harness(&name));
    0
}

/// # Safety
///
/// libFuzzer calls it with an input.
#[unsafe(no_mangle)]
pub unsafe extern "C" fn LLVMFuzzerTestOneInput(at: *const u8, len: usize) -> c_int {
    let input = if len == 0 { &[] } else { unsafe { slice::from_raw_parts(at, len) } };
    HARNESS.get().expect("a harness")(input);
    0
}
