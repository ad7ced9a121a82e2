//! Timing of replays: a book is rebuilt from a history that a book made.
use crate::histories;
use crate::audits::ended;
use crate::cases::shelf_of;
use crate::loads::{Load, drive};
use crate::{BOOK_TIMES, show_since};
use anyhow::{Result, ensure};
use saga_audit::audit;
use saga_def::Definition;
use std::time::Instant;

/// Audits a history, and then rebuilds a book from it. Prints the time of each, and returns the number of events.
fn time_once(rt: &HostRuntime, shelf: &[Definition], load: Load) -> Result<usize> {
    let (events, _) = drive(rt, shelf, load)?;
    let count = events.len();
    let start = Instant::now(rt)?;
    ended(audit(rt.alloc(), shelf, &events)?)?;
    show_since(rt, start)?;
    let start = Instant::now(rt)?;
    let book = histories::book(rt.alloc(), shelf, events)?;
    show_since(rt, start)?;
    ensure!(book.settled(), "not settled");
    ensure!(book.history().len() == count, "another number of events");
    Ok(count)
}

/// Times replays of the history of a load for a case's definition.
pub fn time_replays(rt: &HostRuntime, text: &str, load: Load) -> Result<()> {
    let shelf = shelf_of(rt.alloc(), text, load.misses)?;
    let mut events = 0;
    for _ in 0..BOOK_TIMES {
        events = time_once(rt, &shelf, load)?;
    }
    println!(rt; "events {events}")?;
    Ok(())
}
