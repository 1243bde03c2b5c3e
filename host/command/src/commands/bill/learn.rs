//! Learns what the bill needs to know of each film: from the ledger, or by reading the film once. Several films may be read
//! at once; only one thread uses the books and the ledger.

use std::collections::BTreeMap;
use std::path::PathBuf;
use std::sync::Arc;
use std::sync::mpsc::{Sender, SyncSender, channel, sync_channel};
use std::thread::{self, Scope};

use super::books::{Books, Wanted};
use super::holdings::Holdings;
use super::ledger::{Container, Kind, Ledger};
use super::lock::Lock;
use super::reading::{Known, Learning, Records, read};
use crate::output::Error;
use crate::run::progress::{Meter, Progress};
use crate::sharing::classes::Class;

/// How many films were known from the ledger, and how many were read.
#[derive(Default)]
pub struct Learnt {
    pub known: u64,
    pub read: u64,
}

/// Learns about all films, `jobs` of them at once. A film that is refused or can't be read is left out, with the reason.
pub fn learn(books: &Books, holdings: &Holdings, ledger: Option<&Ledger>, jobs: usize) -> Result<Learnt, Error> {
    let progress = Progress::new(Some(books.bytes_wanted()?));
    let mut learner = Learner {
        books,
        holdings,
        lock: Lock::new(ledger),
        learnt: Learnt::default(),
        last: 0,
        started: 0,
        done: BTreeMap::new(),
        entered: 0,
    };
    let done = thread::scope(|scope| learner.learn(jobs, &progress, scope));
    let done = learner.lock.let_go(done);
    progress.end();
    done.map(|()| learner.learnt)
}

struct Learner<'a> {
    books: &'a Books,
    holdings: &'a Holdings,
    lock: Lock<'a>,
    learnt: Learnt,
    /// The film that was started last, by its number in the books, and how many were started.
    last: i64,
    started: usize,
    /// Films that are done and wait for those before them: the books must be the same however many are read at once.
    done: BTreeMap<usize, (Arc<Job>, OfFilm)>,
    /// How many are in the books.
    entered: usize,
}

/// A film to be read.
struct Job {
    /// By the order in which films are started.
    number: usize,
    wanted: Wanted,
    path: PathBuf,
}

/// What is known of a film, or why it is left out.
type OfFilm = Result<Known, Error>;

/// What a reading thread asks or reports.
enum Event {
    /// What does the ledger know of this container?
    Recall(Arc<Job>, Container, SyncSender<Option<Known>>),
    /// Under which classes of keys is the film held, where it shows these bits?
    Classes(Arc<Job>, u64, SyncSender<Vec<Class>>),
    Read(Arc<Job>, Result<Learning, Error>),
}

/// How many films may wait for one before them.
const AHEAD: usize = 64;

impl<'a> Learner<'a> {
    /// Starts films and collects what is learnt of them, until all are in the books.
    fn learn<'s>(&mut self, jobs: usize, progress: &'s Progress, scope: &'s Scope<'s, '_>) -> Result<(), Error> {
        let (events, incoming) = channel();
        loop {
            while self.reading() < jobs
                && let Some(job) = self.next()?
            {
                if jobs == 1 || !self.read_beside(&job, progress, scope, &events) {
                    self.read_here(job, progress)?;
                }
            }
            if self.reading() == 0 {
                return Ok(());
            }
            match incoming.recv() {
                Ok(event) => self.answer(event)?,
                Err(_) => return Err(Error::System("no thread reads films any more".to_string())),
            }
        }
    }

    /// Has another thread read a film. Returns whether a thread could be started.
    fn read_beside<'s>(
        &self,
        job: &Arc<Job>,
        progress: &'s Progress,
        scope: &'s Scope<'s, '_>,
        events: &Sender<Event>,
    ) -> bool {
        let has_ledger = self.lock.ledger.is_some();
        let asking = Asking { job: job.clone(), has_ledger, events: events.clone() };
        thread::Builder::new().spawn_scoped(scope, move || asking.read(progress)).is_ok()
    }

    fn read_here(&mut self, job: Arc<Job>, progress: &Progress) -> Result<(), Error> {
        let learning = job.read(&self.records(&job), progress)?;
        self.take(job, learning)
    }

    fn answer(&mut self, event: Event) -> Result<(), Error> {
        match event {
            Event::Recall(job, container, answer) => {
                answer.send(self.records(&job).recall(&container)?).ok();
            }
            Event::Classes(job, bits, answer) => {
                answer.send(self.records(&job).classes(bits)?).ok();
            }
            Event::Read(job, learning) => self.take(job, learning)?,
        }
        Ok(())
    }

    fn records(&self, job: &Job) -> OwnRecords<'a> {
        OwnRecords { books: self.books, ledger: self.lock.ledger, file: job.wanted.file }
    }

    /// How many films are being read.
    fn reading(&self) -> usize {
        self.started - self.entered - self.done.len()
    }

    /// The next film that must be read. Films that the ledger knows completely are entered on the way. From here on other
    /// runs on this ledger wait, so that no two read one film.
    fn next(&mut self) -> Result<Option<Arc<Job>>, Error> {
        while self.done.len() < AHEAD {
            let Some(wanted) = self.books.wanted_after(self.last)? else { return Ok(None) };
            self.last = wanted.file;
            let path = self.holdings.file(&wanted.path);
            let job = Arc::new(Job { number: self.started, wanted, path });
            self.started += 1;
            let Some(known) = self.recall_file(&job)? else {
                self.learnt.read += 1;
                return Ok(Some(job));
            };
            self.learnt.known += 1;
            self.done.insert(job.number, (job, Ok(known)));
            self.enter()?;
        }
        Ok(None)
    }

    /// All that the bill needs of a film whose file has not changed. `None` where the ledger lacks something; then other runs
    /// wait.
    fn recall_file(&mut self, job: &Job) -> Result<Option<Known>, Error> {
        self.lock.look_up()?;
        let records = self.records(job);
        if let Some(known) = records.recall_file(job)? {
            return Ok(Some(known));
        }
        self.lock.hold()?;
        let known = records.recall_file(job)?;
        if known.is_some() && self.reading() == 1 {
            // Another run has read it in the meantime, and this one is reading nothing else.
            self.lock.let_go(Ok(()))?;
        }
        Ok(known)
    }

    /// Stores what was learnt of a film in the ledger, in a transaction of its own, and enters it in the books.
    fn take(&mut self, job: Arc<Job>, learning: Result<Learning, Error>) -> Result<(), Error> {
        let kept = match (self.lock.ledger, &learning) {
            (Some(ledger), Ok(learning)) => keep(ledger, &job, learning),
            _ => Ok(()),
        };
        self.lock.let_go(kept)?;
        self.done.insert(job.number, (job, learning.map(|learning| learning.known)));
        self.enter()?;
        if self.reading() > 0 { self.lock.hold() } else { Ok(()) }
    }

    /// Enters finished films in the books, in their order.
    fn enter(&mut self) -> Result<(), Error> {
        while let Some((job, known)) = self.done.remove(&self.entered) {
            self.entered += 1;
            self.enter_film(job.wanted.file, known)?;
        }
        Ok(())
    }

    fn enter_film(&self, file: i64, known: OfFilm) -> Result<(), Error> {
        match known {
            Ok(Known { kind: Kind::Shows(bits), found, .. }) => {
                self.books.learn_bits(file, bits)?;
                let mut first = None;
                for found in &found {
                    let streams = self.books.learn_streams(file, bits, found, first)?;
                    first.get_or_insert(streams);
                }
                self.books.learn_keys(file, bits)
            }
            Ok(Known { kind: Kind::Refused(why), .. }) => self.books.leave_out(file, &why),
            Err(Error::Output(error)) => Err(Error::Output(error)),
            Err(error) => self.books.leave_out(file, &error.to_string()),
        }
    }
}

/// Stores what was learnt of a film.
fn keep(ledger: &Ledger, job: &Job, learning: &Learning) -> Result<(), Error> {
    let Learning { known, learnt, container: Some(container) } = learning else { return Ok(()) };
    ledger.keep_film(&job.path, &job.wanted.identity, container)?;
    ledger.keep_kind(container, &known.kind)?;
    let first = learnt.first().and_then(|found| found.class);
    learnt.iter().try_for_each(|found| ledger.keep_found(container, first, found))
}

impl Job {
    fn read(&self, records: &impl Records, progress: &Progress) -> Result<Result<Learning, Error>, Error> {
        let Wanted { identity, .. } = &self.wanted;
        read(&self.path, identity, records, &Meter::new(progress, 1, identity.size))
    }
}

/// The books and the ledger, for the thread that uses them.
struct OwnRecords<'a> {
    books: &'a Books,
    ledger: Option<&'a Ledger>,
    /// The film, as the books number it.
    file: i64,
}

impl OwnRecords<'_> {
    /// All that the bill needs of a film whose file has not changed; `None` where the ledger lacks something.
    fn recall_file(&self, job: &Job) -> Result<Option<Known>, Error> {
        let Some(ledger) = self.ledger else { return Ok(None) };
        let Some((container, kind)) = ledger.film(&job.path, &job.wanted.identity)? else { return Ok(None) };
        let known = Known::recall(ledger, &container, kind, |bits| self.classes(bits))?;
        Ok(Some(known).filter(Known::is_complete))
    }
}

impl Records for OwnRecords<'_> {
    fn has_ledger(&self) -> bool {
        self.ledger.is_some()
    }

    fn recall(&self, container: &Container) -> Result<Option<Known>, Error> {
        let Some(ledger) = self.ledger else { return Ok(None) };
        let Some(kind) = ledger.kind(container)? else { return Ok(None) };
        Known::recall(ledger, container, kind, |bits| self.classes(bits)).map(Some)
    }

    fn classes(&self, bits: u64) -> Result<Vec<Class>, Error> {
        self.books.classes(self.file, bits)
    }
}

/// The same for the other threads, which ask that one.
struct Asking {
    job: Arc<Job>,
    has_ledger: bool,
    events: Sender<Event>,
}

impl Asking {
    fn read(&self, progress: &Progress) {
        let learning = self.job.read(self, progress).and_then(|learning| learning);
        self.events.send(Event::Read(self.job.clone(), learning)).ok();
    }

    fn ask<T>(&self, event: impl FnOnce(Arc<Job>, SyncSender<T>) -> Event) -> Result<T, Error> {
        let (sender, answer) = sync_channel(1);
        self.events.send(event(self.job.clone(), sender)).ok();
        answer.recv().map_err(|_| Error::System("the run has ended".to_string()))
    }
}

impl Records for Asking {
    fn has_ledger(&self) -> bool {
        self.has_ledger
    }

    fn recall(&self, container: &Container) -> Result<Option<Known>, Error> {
        self.ask(|job, answer| Event::Recall(job, *container, answer))
    }

    fn classes(&self, bits: u64) -> Result<Vec<Class>, Error> {
        self.ask(|job, answer| Event::Classes(job, bits, answer))
    }
}
