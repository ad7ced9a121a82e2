//! Timing of complete runs: workers execute sagas to their end, then the log of the run is written and audited.
ghost use Rattle.std.specs.Prelude.{◌≡◌};

use crate::histories::events_in;
use crate::histories;
use crate::audits::ended;
use crate::cases::shelf_of;
use crate::loads::{Load, show_drive};
use crate::{BOOK_TIMES, show_since};
use anyhow::{Result, bail, ensure};
use saga_audit::audit;
use saga_core::Book;
use saga_def::Definition;
use saga_desk::Job;
use saga_history::{Event, Outcome};
use saga_log::write_log;
use saga_work::{Actor, run_all};
use std::alloc::{AllocError, Global};
use std::hint::spin_loop;
use std::io;
use std::sync::Wait;
use std::thread::Threads;
use std::time::{Duration, Instant};

/// The parameters of a run: the number of sagas of one definition, and the numbers of workers and shards. Also for how
/// many microseconds each step keeps its worker busy, and whether the log is written and audited.
#[derive(Clone, Copy)]
pub struct Crew {
    pub sagas: u32,
    pub workers: u32,
    pub shards: u32,
    pub micros: u32,
    pub logs: bool,
}

/// An actor whose steps succeed after this time, or immediately.
#[derive(Drop)]
struct Ready<'r> {
    rt: &'r HostRuntime,
    takes: Duration,
}

impl Ready<'_> {
    /// Keeps the processor busy.
    fn work(&self) -> io::Result<()> {
        if self.takes.is_zero() {
            return Ok(());
        }
        let start = Instant::now(self.rt)?;
        for _ in 0..u32::MAX {
            if start.elapsed(self.rt)? >= self.takes {
                break;
            }
            spin_loop();
        }
        Ok(())
    }
}

impl Actor for Ready<'_> {
    ghost use Rattle.saga_history.specs.declared.tasks.Outcome.{Outcome};

    ghost may = { λ ready job outcome. outcome ≡ Outcome.Done };

    ghost may_abort = { λ ready job. ⊥ };

    ghost must_abort = { λ ready job. ⊥ };

    fn run(&self, job: &Job<'_>) -> Outcome {
        let _ = job;
        let _ = self.work();
        Outcome::Done
    }

    fn undo(&self, job: &Job<'_>) -> Outcome {
        let _ = job;
        Outcome::Done
    }

    fn asks_abort(&self, job: &Job<'_>) -> bool {
        let _ = job;
        false
    }
}

/// Requests the first definition of a shelf this number of times.
fn asks_of(alloc: Global, sagas: u32) -> Result<Vec<u32>, AllocError> {
    let mut asks = Vec::new(alloc);
    for _ in 0..sagas {
        asks.push(0)?;
    }
    Ok(asks)
}

/// The books of a run in which each saga is ended.
fn books_of<'d, R: Threads + Wait + Sync>(
    threads: &R,
    rt: &HostRuntime,
    shelf: &'d [Definition],
    asks: &[u32],
    crew: Crew,
) -> Result<Vec<Book<'d>>> {
    let Crew {
        workers,
        shards,
        micros,
        ..
    } = crew;
    ensure!(0 < workers && workers <= 16, "1 to 16 workers");
    ensure!(0 < shards && shards <= 16, "1 to 16 shards");
    let ready = Ready {
        rt,
        takes: Duration::from_micros(u64::from(micros)),
    };
    match run_all(threads, rt.alloc(), shelf, asks, workers, shards, &ready) {
        Ok(run) => {
            ensure!(run.stopped.is_none(), "stopped");
            Ok(run.books)
        }
        Err(fault) => bail!("{}", fault.word()),
    }
}

/// The log of the histories of books, one after another.
fn log_of(alloc: Global, books: Vec<Book<'_>>) -> Result<String, AllocError> {
    let mut events: Vec<Event> = Vec::new(alloc);
    for book in books {
        let mut history = book.into_history();
        events.append(&mut history)?;
    }
    write_log(alloc, &events)
}

/// Writes the log of books, and prints the time.
fn show_log(rt: &HostRuntime, books: Vec<Book<'_>>) -> Result<String> {
    let start = Instant::now(rt)?;
    let log = log_of(rt.alloc(), books)?;
    show_since(rt, start)?;
    Ok(log)
}

/// Writes the log of books and audits it, and returns the number of ended sagas. Prints the time of each.
fn time_log_of(rt: &HostRuntime, shelf: &[Definition], books: Vec<Book<'_>>) -> Result<usize> {
    let log = show_log(rt, books)?;
    let start = Instant::now(rt)?;
    let events = histories::events(rt.alloc(), log.as_str())?;
    let count = ended(audit(rt.alloc(), shelf, &events)?)?;
    show_since(rt, start)?;
    Ok(count)
}

/// Executes the requested sagas with a book in one thread, and then with workers. Prints the time of each, and returns
/// the number of events.
fn time_once<R: Threads + Wait + Sync>(
    threads: &R,
    rt: &HostRuntime,
    shelf: &[Definition],
    asks: &[u32],
    crew: Crew,
) -> Result<usize> {
    let load = Load {
        sagas: crew.sagas,
        misses: 0,
        fails: None,
    };
    let alone = show_drive(rt, shelf, load)?.len();
    let start = Instant::now(rt)?;
    let books = books_of(threads, rt, shelf, asks, crew)?;
    show_since(rt, start)?;
    let events = events_in(&books);
    ensure!(events == alone, "not as many events as alone");
    if crew.logs {
        let count = time_log_of(rt, shelf, books)?;
        ensure!(count == crew.sagas as usize, "not all ended");
    }
    Ok(events)
}

/// Times runs of sagas of a case's definition.
pub fn time_runs<R: Threads + Wait + Sync>(
    threads: &R,
    rt: &HostRuntime,
    text: &str,
    crew: Crew,
) -> Result<()> {
    let shelf = shelf_of(rt.alloc(), text, 0)?;
    let asks = asks_of(rt.alloc(), crew.sagas)?;
    let mut events = 0;
    for _ in 0..BOOK_TIMES {
        events = time_once(threads, rt, &shelf, &asks, crew)?;
    }
    println!(rt; "events {events}")?;
    Ok(())
}
