//! Timing of the end of a desk: the comparison of all receipts with the histories, after the seats have done all tasks.
use crate::histories::receipts_in;
use crate::cases::shelf_of;
use crate::{BOOK_TIMES, show};
use anyhow::{Result, bail, ensure};
use saga_def::Definition;
use saga_desk::{Claim, Desk, Seat};
use saga_history::Outcome;
use std::sync::Wait;
use std::time::{Duration, Instant};

/// The number of seats and of shards.
const PLACES: u32 = 16;

/// The maximum number of claims for one saga.
const MOST_CLAIMS: u64 = 4096;

/// Opens this number of sagas, on each shard in turn.
fn open_all<R: Wait>(rt: &R, desk: &Desk<'_>, seats: &mut Vec<Seat>, sagas: u32) -> Result<()> {
    let shards = desk.shards();
    for saga in 0..sagas {
        let Some(seat) = seats.first_mut() else {
            bail!("no seat");
        };
        ensure!(shards > 0, "no shard");
        let opened = desk.open_saga(rt, seat, saga % shards, 0).is_ok();
        ensure!(opened, "not opened");
    }
    Ok(())
}

/// Claims and reports one step, and returns whether there was one.
fn perform<R: Wait>(rt: &R, desk: &Desk<'_>, seat: &mut Seat) -> Result<bool> {
    match desk.claim(rt, seat)? {
        Claim::Run(job) | Claim::Undo(job) => {
            let reported = desk.report(rt, seat, job, Outcome::Done).is_ok();
            ensure!(reported, "not reported");
            Ok(true)
        }
        Claim::Plan(..) => bail!("a plan"),
        Claim::Idle | Claim::Settled => Ok(false),
    }
}

/// Opens this number of sagas and lets the seats take turns until all is settled. Returns the number of receipts.
fn drive_all<R: Wait>(
    waits: &R,
    desk: &Desk<'_>,
    seats: &mut Vec<Seat>,
    sagas: u32,
) -> Result<usize> {
    open_all(waits, desk, seats, sagas)?;
    for _ in 0..MOST_CLAIMS * u64::from(sagas) {
        let mut busy = false;
        for seat in &mut *seats {
            busy = perform(waits, desk, seat)? || busy;
        }
        if !busy {
            break;
        }
    }
    Ok(receipts_in(seats))
}

/// Runs this number of sagas of a definition, and ends the desk. Returns the number of receipts, and the time of the
/// end.
fn end_desk<R: Wait>(
    waits: &R,
    rt: &HostRuntime,
    shelf: &[Definition],
    sagas: u32,
) -> Result<(usize, Duration)> {
    let (desk, mut seats) = Desk::open(rt.alloc(), shelf, PLACES, PLACES)?;
    let receipts = drive_all(waits, &desk, &mut seats, sagas)?;
    let start = Instant::now(rt)?;
    let Ok(books) = desk.finish(seats) else {
        bail!("not ended");
    };
    let took = start.elapsed(rt)?;
    ensure!(books.len() == PLACES as usize, "books");
    Ok((receipts, took))
}

/// Times the end of a desk that has the definition of a case on its shelf.
pub fn time_desk<R: Wait>(waits: &R, rt: &HostRuntime, text: &str, sagas: u32) -> Result<()> {
    let shelf = shelf_of(rt.alloc(), text, 0)?;
    println!(rt; "receipts {}", end_desk(waits, rt, &shelf, sagas)?.0)?;
    for _ in 0..BOOK_TIMES {
        let (_, took) = end_desk(waits, rt, &shelf, sagas)?;
        show(rt, took)?;
    }
    Ok(())
}
