//! Histories as texts and as books, and their counts.
use anyhow::{Result, bail};
use saga_core::Book;
use saga_def::Definition;
use saga_desk::Seat;
use saga_history::Event;
use saga_log::{LogFault, read_log};
use std::alloc::Global;

/// The events of a log.
pub fn events(alloc: Global, log: &str) -> Result<Vec<Event>> {
    match read_log(alloc, log.as_bytes()) {
        Ok(events) => Ok(events),
        Err(LogFault::BadLine { line, .. }) => bail!("a fault in line {line}"),
        Err(LogFault::OutOfMemory) => bail!("out of memory"),
    }
}

/// The book of a history.
pub fn book(alloc: Global, shelf: &[Definition], events: Vec<Event>) -> Result<Book<'_>> {
    match Book::replay(alloc, shelf, 0, 1, events) {
        Ok(book) => Ok(book),
        Err(_) => bail!("not replayed"),
    }
}

/// The number of events of books.
pub fn events_in(books: &[Book<'_>]) -> usize {
    let mut events = 0usize;
    for book in books {
        events = events.saturating_add(book.history().len());
    }
    events
}

/// The number of receipts of seats.
pub fn receipts_in(seats: &[Seat]) -> usize {
    let mut receipts = 0usize;
    for seat in seats {
        receipts = receipts.saturating_add(seat.receipts().len());
    }
    receipts
}
