//! Timing of logs: reading, writing, and for comparison parsing the same lines to JSON values.
use crate::histories;
use crate::show_since;
use anyhow::{Result, ensure};
use saga_bytes::split_line;
use saga_history::Event;
use saga_log::write_log;
use serde_json::Value;
use std::alloc::Global;
use std::time::Instant;

/// The number of runs.
const TIMES: u32 = 7;

/// The number of lines of a text that are JSON.
fn values_of(alloc: Global, text: &[u8]) -> usize {
    let mut count = 0usize;
    let mut left = text;
    for _ in 0..text.len() {
        let Some((line, rest)) = split_line(left) else {
            break;
        };
        if Value::from_slice(alloc, line).is_ok() {
            count = count.wrapping_add(1);
        }
        left = rest;
    }
    count
}

/// Reads a log's text, and prints the time. Returns the events.
fn read_once(rt: &HostRuntime, text: &str) -> Result<Vec<Event>> {
    let start = Instant::now(rt)?;
    let events = histories::events(rt.alloc(), text)?;
    show_since(rt, start)?;
    Ok(events)
}

/// Writes a log again, and prints the time.
fn write_once(rt: &HostRuntime, events: &[Event], text: &str) -> Result<()> {
    let start = Instant::now(rt)?;
    let again = write_log(rt.alloc(), events)?;
    show_since(rt, start)?;
    ensure!(again.as_str() == text, "another text was written");
    Ok(())
}

/// Parses the lines of a log's text to values, and prints the time. Returns their number.
fn values_once(rt: &HostRuntime, text: &str) -> Result<usize> {
    let start = Instant::now(rt)?;
    let count = values_of(rt.alloc(), text.as_bytes());
    show_since(rt, start)?;
    Ok(count)
}

/// Reads a log's text, writes it again, and parses its lines to values.
fn run_once(rt: &HostRuntime, text: &str) -> Result<()> {
    let events = read_once(rt, text)?;
    write_once(rt, &events, text)?;
    let count = values_once(rt, text)?;
    ensure!(count >= events.len(), "too few values");
    Ok(())
}

/// Times many runs on a log's text.
pub fn time_logs(rt: &HostRuntime, text: &str) -> Result<()> {
    let events = histories::events(rt.alloc(), text)?.len();
    println!(rt; "events {events}")?;
    for _ in 0..TIMES {
        run_once(rt, text)?;
    }
    Ok(())
}
