//! Timing of audits of histories that a book made.
use crate::cases::shelf_of;
use crate::loads::{Load, show_drive};
use crate::{BOOK_TIMES, show_since};
use anyhow::{Result, bail, ensure};
use saga_audit::{AuditAnswer, audit, audit_with};
use saga_def::Definition;
use std::thread::Threads;
use std::time::Instant;

/// The number of ended sagas in the result of an audit.
pub fn ended(answer: AuditAnswer) -> Result<usize> {
    match answer {
        AuditAnswer::Yes { ended, .. } => Ok(ended),
        AuditAnswer::No { position, reason } => bail!("{} at {position}", reason.word()),
    }
}

/// Makes the history of a load and audits it, with one thread and with this number of workers. Prints the time of each,
/// and returns the number of events.
fn time_once<R: Threads + Sync>(
    threads: &R,
    rt: &HostRuntime,
    shelf: &[Definition],
    load: Load,
    workers: u32,
) -> Result<usize> {
    ensure!(0 < workers && workers <= 16, "1 to 16 workers");
    let events = show_drive(rt, shelf, load)?;
    let start = Instant::now(rt)?;
    let alone = ended(audit(rt.alloc(), shelf, &events)?)?;
    show_since(rt, start)?;
    let start = Instant::now(rt)?;
    let together = ended(audit_with(threads, rt.alloc(), workers, shelf, &events)?)?;
    show_since(rt, start)?;
    let sagas = load.sagas as usize;
    ensure!(alone == sagas && together == sagas, "not all ended");
    Ok(events.len())
}

/// Times audits of the history of a load for a case's definition.
pub fn time_audits<R: Threads + Sync>(
    threads: &R,
    rt: &HostRuntime,
    text: &str,
    load: Load,
    workers: u32,
) -> Result<()> {
    let shelf = shelf_of(rt.alloc(), text, load.misses)?;
    let mut events = 0;
    for _ in 0..BOOK_TIMES {
        events = time_once(threads, rt, &shelf, load, workers)?;
    }
    println!(rt; "events {events} ended {}", load.sagas)?;
    Ok(())
}
