//! Timing of a book: sagas are opened, and executed one task after another until no task is left.
use crate::cases::shelf_of;
use crate::{BOOK_TIMES, show};
use anyhow::{Result, bail, ensure};
use saga_check::verify;
use saga_core::Book;
use saga_def::Definition;
use saga_history::{Event, Outcome, Task};
use saga_plan::plan;
use std::time::{Duration, Instant};

/// The maximum number of tasks of one saga: each of its steps run and compensated, and the plans.
const MOST_TASKS: usize = 4096;

/// The load: the number of sagas of one definition, how often each step is missed before it succeeds, and which step of
/// each saga fails, if any.
#[derive(Clone, Copy)]
pub struct Load {
    pub sagas: u32,
    pub misses: u32,
    pub fails: Option<u16>,
}

/// Plans how a saga ends, and adopts the plan. Returns the time of planning and checking, which is not part of the
/// book's time.
fn settle(rt: &HostRuntime, book: &mut Book, saga: u32) -> Result<Duration> {
    let Ok(case) = book.take_plan(saga) else {
        bail!("no case");
    };
    let start = Instant::now(rt);
    let answer = plan(rt.alloc(), &case)?;
    let Ok(verdict) = verify(case, answer) else {
        bail!("not right");
    };
    let took = start?.elapsed(rt);
    ensure!(book.adopt(saga, verdict).is_ok(), "not adopted");
    Ok(took?)
}

/// Executes a task. Returns the time that is not the book's.
fn perform(rt: &HostRuntime, book: &mut Book, task: Task, load: Load) -> Result<Duration> {
    match task {
        Task::Run(saga, step) => {
            for _ in 0..load.misses {
                ensure!(book.take_run(saga, step).is_ok(), "not taken");
                let missed = book.report_run(saga, step, Outcome::Failed).is_ok();
                ensure!(missed, "not missed");
            }
            ensure!(book.take_run(saga, step).is_ok(), "not taken");
            let outcome = if load.fails == Some(step) {
                Outcome::Failed
            } else {
                Outcome::Done
            };
            ensure!(book.report_run(saga, step, outcome).is_ok(), "not reported");
            Ok(Duration::ZERO)
        }
        Task::Undo(saga, step) => {
            ensure!(book.take_undo(saga, step).is_ok(), "not taken");
            let reported = book.report_undo(saga, step, Outcome::Done).is_ok();
            ensure!(reported, "not reported");
            Ok(Duration::ZERO)
        }
        Task::Plan(saga) => settle(rt, book, saga),
    }
}

/// Opens the sagas of a load in a book, and executes them to their end. Returns the time that is not the book's.
fn drive_book(rt: &HostRuntime, book: &mut Book, load: Load) -> Result<Duration> {
    let mut others = Duration::ZERO;
    for _ in 0..load.sagas {
        ensure!(book.open(0).is_ok(), "not opened");
    }
    for _ in 0..MOST_TASKS * load.sagas as usize {
        let Some(task) = book.next() else {
            break;
        };
        others = others.saturating_add(perform(rt, book, task, load)?);
    }
    ensure!(book.settled(), "not settled");
    Ok(others)
}

/// Executes the sagas of a load with a book. Returns the history, and the book's time.
pub fn drive(rt: &HostRuntime, shelf: &[Definition], load: Load) -> Result<(Vec<Event>, Duration)> {
    let start = Instant::now(rt)?;
    let mut book = Book::new(rt.alloc(), shelf, 0, 1);
    let others = drive_book(rt, &mut book, load)?;
    let took = start.elapsed(rt)?.saturating_sub(others);
    Ok((book.into_history(), took))
}

/// Executes the sagas of a load, and prints the book's time. Returns the history.
pub fn show_drive(rt: &HostRuntime, shelf: &[Definition], load: Load) -> Result<Vec<Event>> {
    let (events, took) = drive(rt, shelf, load)?;
    show(rt, took)?;
    Ok(events)
}

/// Times a book with a load of a case's definition.
pub fn time_book(rt: &HostRuntime, text: &str, load: Load) -> Result<()> {
    let shelf = shelf_of(rt.alloc(), text, 0)?;
    println!(rt; "events {}", drive(rt, &shelf, load)?.0.len())?;
    for _ in 0..BOOK_TIMES {
        let _events = show_drive(rt, &shelf, load)?;
    }
    Ok(())
}
