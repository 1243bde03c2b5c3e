//! How the command ends where Rust itself gives up: no memory for something small, no stack for a thread, or a fault of
//! the command. It ends with a line on standard error and the status of a failure, and by no signal.

use std::panic::{self, PanicHookInfo};
use std::process::ExitCode;
use std::sync::Arc;
use std::sync::atomic::AtomicBool;

use signal_hook::consts::SIGABRT;
use signal_hook::flag::register_conditional_shutdown;

use crate::output::{Status, report};

/// Runs the command.
pub fn end_well(command: impl FnOnce() -> Status + panic::UnwindSafe) -> ExitCode {
    panic::set_hook(Box::new(|panic| {
        report(Status::Failed, &in_words(panic));
    }));
    // Without memory Rust says so in a line of its own, and aborts. Where this can't be arranged, the signal stays.
    register_conditional_shutdown(SIGABRT, Status::Failed as i32, Arc::new(AtomicBool::new(true))).ok();
    let status = panic::catch_unwind(command).unwrap_or(Status::Failed);
    ExitCode::from(status as u8)
}

fn in_words(panic: &PanicHookInfo) -> String {
    let payload = panic.payload();
    let text = payload.downcast_ref::<&str>().copied().or(payload.downcast_ref::<String>().map(String::as_str));
    let place = panic.location().map_or(String::new(), |place| format!(" ({place})"));
    format!("{}{place}", text.unwrap_or("the command gives up").replace('\n', " "))
}
