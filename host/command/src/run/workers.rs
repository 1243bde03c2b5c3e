//! Several films at once. Each is done as soon as it can be; what is printed comes in the order of the arguments.

use std::cell::Cell;
use std::collections::BTreeMap;
use std::io::Write;
use std::ops::{Deref, DerefMut};
use std::path::Path;
use std::sync::atomic::{AtomicUsize, Ordering};
use std::sync::mpsc::channel;
use std::sync::{Condvar, Mutex, MutexGuard, PoisonError};
use std::thread;

use crate::output::json::FailedFilm;
use crate::output::text::Shown;
use crate::output::{self, Error, Output, Status};
use crate::run::gate::Gate;
use crate::run::input::{Buffers, Input};
use crate::run::outcomes::Outcomes;
use crate::run::progress::{Meter, Progress};
use crate::run::sources::{RunOptions, Source};

/// What a command does with a film.
pub trait Task: Sync {
    /// How often it goes through a film's bytes: once to read them, and again to write.
    const STEPS: u64 = 1;

    /// Prints what comes before all films.
    fn begin(&self, _output: &mut Output) -> Result<(), Error> {
        Ok(())
    }

    /// Works on a film, and prints in its turn.
    fn film<'a>(&'a self, film: Film<'a, '_>, turn: &Turn<'a, '_>) -> Result<(), Error>;

    /// Prints that a film fails, where the command's output says so. An error goes to standard error in any case.
    fn failed(&self, _label: &Path, _error: &Error, _output: &mut Output) -> Result<(), Error> {
        Ok(())
    }

    /// Prints what comes after all films.
    fn end(&self, _output: &mut Output) -> Result<(), Error> {
        Ok(())
    }
}

/// A film that is open.
pub struct Film<'a, 'b> {
    /// What it is called where it is spoken of.
    pub label: &'a Path,
    pub input: &'b mut Input,
    pub buffers: &'b mut Buffers,
    pub meter: &'b Meter<'b>,
}

/// A film that is read whole.
pub struct WholeFilm<'b> {
    pub bytes: &'b [u8],
    /// Room for what is made of it.
    pub made: &'b mut Vec<u8>,
}

impl<'b> Film<'_, 'b> {
    /// Reads the film into memory.
    pub fn read(self) -> Result<WholeFilm<'b>, Error> {
        let Buffers { film, made } = self.buffers;
        self.input.read_all(film, self.meter)?;
        Ok(WholeFilm { bytes: film, made })
    }
}

/// Runs a task on films.
pub fn run(task: &impl Task, sources: &[Source], options: &RunOptions) -> Status {
    let progress = Progress::new(sources.iter().map(|source| source.length).sum());
    let begun = Output::new(progress.bar()).map_err(Error::Output).and_then(|mut output| {
        task.begin(&mut output)?;
        output.flush().map_err(Error::Output)?;
        Ok(output)
    });
    let output = match begun {
        Ok(output) => output,
        Err(error) => return output::report_error(error),
    };
    let shared = Shared {
        turn: 0,
        output,
        status: Status::Success,
        is_closed: false,
        finishing: BTreeMap::new(),
        outcomes: Outcomes::default(),
    };
    let workers = Workers {
        shared: Mutex::new(shared),
        moved: Condvar::new(),
        gate: Gate::default(),
        progress,
        json: options.json,
    };
    let next = AtomicUsize::new(0);
    let work = || {
        let mut buffers = Buffers::default();
        while let Some((number, source)) = take(&next, sources) {
            workers.work(task, number, source, &mut buffers);
            buffers.shrink();
        }
    };
    let (begun, begins) = channel();
    let begin = || {
        begun.send(()).ok();
        work();
    };
    thread::scope(|scope| {
        for _ in 1..options.jobs.jobs().min(sources.len()) {
            // Where there is no thread to be had, those that there are do the work. One that finds no memory for its
            // stack ends the run, so that nothing is begun before it stands.
            if thread::Builder::new().spawn_scoped(scope, begin).is_ok() {
                begins.recv().ok();
            }
        }
        work();
    });
    workers.progress.end();
    let Shared { mut output, status, is_closed, outcomes, .. } =
        workers.shared.into_inner().unwrap_or_else(PoisonError::into_inner);
    if is_closed {
        return status;
    }
    let ended = task.end(&mut output).and_then(|()| output.flush().map_err(Error::Output));
    match ended.and_then(|()| outcomes.report(sources, options)) {
        Ok(()) => status,
        Err(error) => status.max(output::report_error(error)),
    }
}

fn take<'a>(next: &AtomicUsize, sources: &'a [Source]) -> Option<(usize, &'a Source)> {
    let number = next.fetch_add(1, Ordering::Relaxed);
    sources.get(number).map(|source| (number, source))
}

struct Workers<'a> {
    shared: Mutex<Shared<'a>>,
    moved: Condvar,
    gate: Gate,
    progress: Progress,
    json: bool,
}

/// What only one may use at a time.
struct Shared<'a> {
    /// The number of the film whose turn it is to print.
    turn: usize,
    output: Output,
    status: Status,
    /// Standard output can't be written any more.
    is_closed: bool,
    /// What is left to print of films that were done before their turn came.
    finishing: BTreeMap<usize, (&'a Path, Rest<'a>)>,
    outcomes: Outcomes,
}

/// What is left to print of a film in its turn: little, and nothing that holds the film.
type Rest<'a> = Box<dyn FnOnce(&mut Output) -> Result<(), Error> + Send + 'a>;

impl<'a> Workers<'a> {
    fn work<T: Task>(&self, task: &'a T, number: usize, source: &'a Source, buffers: &mut Buffers) {
        // What is no file may keep everybody waiting, so that nobody waits for it at the gate.
        if source.id.is_none() {
            self.gate.leave(number);
        }
        if self.lock().is_closed {
            self.gate.leave(number);
            return self.pass(number);
        }
        let turn = Turn { workers: self, number, label: &source.label, is_over: Cell::new(false) };
        if let Err(error) = turn.film(task, source, buffers) {
            self.gate.leave(number);
            turn.take().fail(task, &source.label, error);
        }
        self.gate.leave(number);
    }

    fn lock(&self) -> MutexGuard<'_, Shared<'a>> {
        self.shared.lock().unwrap_or_else(PoisonError::into_inner)
    }

    /// Waits for the turn of a film, and gives what may be used then.
    fn wait(&self, number: usize) -> Printer<'a, '_> {
        let mut shared = self.lock();
        while shared.turn != number {
            shared = self.moved.wait(shared).unwrap_or_else(PoisonError::into_inner);
        }
        Printer { workers: self, shared }
    }

    /// Ends the turn of a film, and prints what is left of those after it.
    fn pass(&self, number: usize) {
        let mut printer = self.wait(number);
        printer.shared.turn += 1;
        let mut turn = printer.shared.turn;
        while let Some((label, rest)) = printer.shared.finishing.remove(&turn) {
            printer.finish(label, rest);
            turn += 1;
            printer.shared.turn = turn;
        }
        self.moved.notify_all();
    }
}

/// A film's turn. It is over when this is dropped, or when the rest is left to others.
pub struct Turn<'a, 'c> {
    workers: &'c Workers<'a>,
    number: usize,
    label: &'a Path,
    is_over: Cell<bool>,
}

impl<'a> Turn<'a, '_> {
    fn film<T: Task>(&self, task: &'a T, source: &'a Source, buffers: &mut Buffers) -> Result<(), Error> {
        let meter = Meter::new(&self.workers.progress, T::STEPS, source.length.unwrap_or(0));
        let mut input = source.open()?;
        let done = task.film(Film { label: self.label, input: &mut input, buffers, meter: &meter }, self);
        if let Err(Error::Refused(_)) = done {
            // A film that is still being written is no refused film.
            input.check_end()?;
        }
        done?;
        if self.is_over.get() { Ok(()) } else { self.take().flush().map_err(Error::Output) }
    }

    /// Decides something in the order of the films, without waiting for them to be done: those before this one have
    /// decided theirs, or have nothing to decide.
    pub fn decide<R>(&self, decision: impl FnOnce() -> R) -> R {
        self.workers.gate.wait(self.number);
        let decided = decision();
        self.workers.gate.leave(self.number);
        decided
    }

    /// A note about the film, to standard error, at once.
    pub fn note(&self, note: &str) {
        self.workers.progress.report(&format!("note: {}: {note}", Shown::path(self.label)));
    }

    /// Waits for the turn, and gives what may be used then.
    pub fn take(&self) -> Printer<'a, '_> {
        self.workers.wait(self.number)
    }

    /// Prints the rest of a film in its turn, without waiting for it: whoever ends the turn before does it then.
    pub fn finish_in_turn(&self, rest: impl FnOnce(&mut Output) -> Result<(), Error> + Send + 'a) {
        self.is_over.set(true);
        let mut shared = self.workers.lock();
        if shared.turn != self.number {
            shared.finishing.insert(self.number, (self.label, Box::new(rest)));
            return;
        }
        Printer { workers: self.workers, shared }.finish(self.label, Box::new(rest));
        self.workers.pass(self.number);
    }
}

impl Drop for Turn<'_, '_> {
    fn drop(&mut self) {
        if !self.is_over.get() {
            self.workers.pass(self.number);
        }
    }
}

/// Standard output, while it is a film's turn.
pub struct Printer<'a, 'c> {
    workers: &'c Workers<'a>,
    shared: MutexGuard<'c, Shared<'a>>,
}

impl<'a> Printer<'a, '_> {
    /// A note about a film, to standard error.
    pub fn note(&self, label: &Path, note: &str) {
        self.workers.progress.report(&format!("{}: {note}", Shown::path(label)));
    }

    /// The status is at least this one.
    pub fn raise(&mut self, status: Status) {
        self.shared.status = self.shared.status.max(status);
    }

    /// Prints the rest of a film, of which nothing but the printing can fail.
    fn finish(&mut self, label: &Path, rest: Rest<'a>) {
        if self.shared.is_closed {
            return;
        }
        let output = &mut self.shared.output;
        match rest(output).and_then(|()| output.flush().map_err(Error::Output)) {
            Ok(()) => {}
            Err(Error::Output(error)) => self.close(error),
            Err(error) => self.report(label, &error),
        }
    }

    /// Prints why a film fails.
    fn fail(&mut self, task: &impl Task, label: &Path, error: Error) {
        if let Error::Output(error) = error {
            return self.close(error);
        }
        self.report(label, &error);
        if let Err(Error::Output(error)) = self.print_failure(task, label, &error) {
            self.close(error);
        }
    }

    fn print_failure(&mut self, task: &impl Task, label: &Path, error: &Error) -> Result<(), Error> {
        let output = &mut self.shared.output;
        if self.workers.json {
            output.object(&FailedFilm::new(label, error))?;
        }
        task.failed(label, error, output)?;
        output.flush().map_err(Error::Output)
    }

    fn report(&mut self, label: &Path, error: &Error) {
        self.raise(error.status());
        self.shared.outcomes.add(label, error);
        match error {
            Error::Refused(refusal) => self.note(label, &refusal.to_string()),
            Error::Declined(what) | Error::System(what) => self.note(label, what),
            Error::Output(_) => {}
        }
    }

    /// Standard output can't be written any more: the run ends.
    fn close(&mut self, error: std::io::Error) {
        if !self.shared.is_closed {
            self.shared.is_closed = true;
            self.raise(output::failed(error));
        }
    }
}

impl Deref for Printer<'_, '_> {
    type Target = Output;

    fn deref(&self) -> &Output {
        &self.shared.output
    }
}

impl DerefMut for Printer<'_, '_> {
    fn deref_mut(&mut self) -> &mut Output {
        &mut self.shared.output
    }
}
