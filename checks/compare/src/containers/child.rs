//! The original in a child process, for containers that make it fill gigabytes. One such process runs at a time.

use std::io::{self, Read, Write};
use std::process::{Command, Stdio};
use std::sync::Mutex;

use super::answer::Refusal;
use super::original::{self, Answer};

static ONE_AT_A_TIME: Mutex<()> = Mutex::new(());

/// Why the original refuses a container, if it does.
pub fn ask(container: &[u8], audio: bool) -> Result<Option<Refusal>, String> {
    let _turn = ONE_AT_A_TIME.lock();
    let line = run(container, audio).unwrap_or_else(|error| Err(format!("no child process: {error}")))?;
    Ok(refusal(&line))
}

/// The refusal that a child's line tells.
fn refusal(line: &str) -> Option<Refusal> {
    let words: Vec<&str> = line.split(' ').collect();
    let [number, place, column_type] = words[..] else { return None };
    Some(Refusal { number: number.parse().ok()?, place: place.parse().ok()?, column_type: column_type.parse().ok()? })
}

fn run(container: &[u8], audio: bool) -> io::Result<Result<String, String>> {
    let mut command = Command::new(std::env::current_exe()?);
    command.args(["ask", if audio { "1" } else { "0" }]).stdin(Stdio::piped()).stdout(Stdio::piped());
    let mut child = command.spawn()?;
    child.stdin.take().expect("the child's input is a pipe").write_all(container)?;
    let output = child.wait_with_output()?;
    if !output.status.success() {
        return Ok(Err(format!("the child process ended with {}", output.status)));
    }
    Ok(Ok(String::from_utf8_lossy(&output.stdout).trim_end().to_string()))
}

/// The child's side: a container from standard input; a line to standard output, three numbers for a refusal.
pub fn answer(audio: bool) -> io::Result<()> {
    let mut container = Vec::new();
    io::stdin().read_to_end(&mut container)?;
    match original::extract(&container, audio, None, b"") {
        Answer::Refused(Refusal { number, place, column_type }) => println!("{number} {place} {column_type}"),
        Answer::Accepted(_) | Answer::Panicked(..) => println!("not refused"),
    }
    Ok(())
}
