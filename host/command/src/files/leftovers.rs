//! Runs that are stopped by SIGINT, SIGTERM or SIGHUP: hidden files that have names while they are written are removed,
//! files that are just getting theirs have them all, and the run ends as it would have.

use std::collections::BTreeSet;
use std::fs;
use std::path::{Path, PathBuf};
use std::sync::mpsc::channel;
use std::sync::{Mutex, MutexGuard, Once, PoisonError, RwLock, RwLockReadGuard};
use std::thread;

use signal_hook::consts::{SIGHUP, SIGINT, SIGTERM};
use signal_hook::iterator::Signals;
use signal_hook::low_level::emulate_default_handler;

static NAMES: Mutex<BTreeSet<PathBuf>> = Mutex::new(BTreeSet::new());

/// Whoever stops the run waits until nobody holds it.
static HELD: RwLock<()> = RwLock::new(());

fn names() -> MutexGuard<'static, BTreeSet<PathBuf>> {
    NAMES.lock().unwrap_or_else(PoisonError::into_inner)
}

/// Has signals wait until what is given is dropped. From the first time on they are looked after.
pub fn hold() -> RwLockReadGuard<'static, ()> {
    static WATCH: Once = Once::new();
    WATCH.call_once(watch);
    HELD.read().unwrap_or_else(PoisonError::into_inner)
}

/// Remembers a name. Whoever gives a file this name holds the run meanwhile.
pub fn add(name: &Path) {
    names().insert(name.to_path_buf());
}

/// Forgets a name: the file is removed or has another.
pub fn forget(name: &Path) {
    names().remove(name);
}

fn watch() {
    let ignored = ignored_signals();
    let watched = [SIGINT, SIGTERM, SIGHUP].into_iter().filter(|signal| ignored >> (signal - 1) & 1 == 0);
    // Where signals can't be watched a stopped run leaves its hidden files, and does nothing else wrong.
    let Ok(mut signals) = Signals::new(watched) else { return };
    let (begun, begins) = channel();
    let stop = move || {
        begun.send(()).ok();
        for signal in signals.forever() {
            // Both are kept to the end, so that no name is given meanwhile.
            let _held = HELD.write();
            let names = names();
            for name in names.iter() {
                fs::remove_file(name).ok();
            }
            emulate_default_handler(signal).ok();
        }
    };
    // A thread that finds no memory for its stack ends the run. It does so now, before there are files, or not at all.
    if thread::Builder::new().spawn(stop).is_ok() {
        begins.recv().ok();
    }
}

/// The signals that this run ignores, a bit for each: those under nohup must not end it.
fn ignored_signals() -> u64 {
    let status = fs::read_to_string("/proc/self/status").unwrap_or_default();
    let mask = status.lines().find_map(|line| line.strip_prefix("SigIgn:"));
    mask.and_then(|mask| u64::from_str_radix(mask.trim(), 16).ok()).unwrap_or(0)
}
