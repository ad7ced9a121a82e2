//! Times the building of a definition, its order, the flow, the planner, the book and logs, each with the text of a
//! file.
//!
//! The first word is the subject, and the second word is the file. Further words are parameters:
//!
//! - `flow` takes a network in DIMACS format. It prints the value of a maximum flow and the number of rounds.
//! - `plan` takes a case. It prints the cost of a minimum-cost plan and the number of rounds, or `blocked`.
//! - `build` and `order` take a case. They print the number of its needs, and the length of the longest chain of needs.
//! - `book` takes a case and ignores its states. It takes the number of sagas of its definition, and which step of each
//!   saga fails, if any. It prints the number of events.
//! - `audit` takes the same as `book`, and in between the number of workers and how often each step is missed before.
//!   It prints the number of audited events and the number of ended sagas.
//! - `replay` takes the same as `book`. It prints the number of events from which a book was rebuilt.
//! - `desk` takes a case and the number of sagas that 16 seats on 16 shards execute. It prints the number of receipts
//!   that their end compares.
//! - `run` takes a case, the number of sagas of its definition, the number of workers and the number of shards. The
//!   last word is `log` if the log is written and audited, or the number of microseconds that each step takes. It
//!   prints the number of events.
//! - `log` takes a log. It prints the number of its events.
//!
//! Standard error gets the seconds of each of many runs, one line for each run. For some subjects, each run has several
//! lines:
//!
//! - `log`: reading, writing, and parsing the lines to JSON values.
//! - `audit`: the book's calls, the audit with one thread, and the audit with the workers.
//! - `replay`: an audit of the same history, and the replay.
//! - `run`: a book in one thread, the run, and if there is a log, writing it, and reading and auditing it.
#![tactic(auto)]

mod audits;
mod cases;
mod dimacs;
mod ends;
mod flows;
mod histories;
mod loads;
mod logs;
mod parts;
mod replays;
mod runs;

use crate::audits::time_audits;
use crate::cases::number;
use crate::ends::time_desk;
use crate::flows::time_flow;
use crate::loads::{Load, time_book};
use crate::logs::time_logs;
use crate::parts::{time_build, time_order, time_plan};
use crate::replays::time_replays;
use crate::runs::{Crew, time_runs};
use anyhow::{Context, Result, bail};
use std::alloc::Global;
use std::env::Args;
use std::iter::Skip;
use std::sync::Wait;
use std::thread::Threads;
use std::time::{Duration, Instant};
use std::{env, fs, io};

/// The number of runs. Each run has a line.
const TIMES: u32 = 101;

/// The number of runs of a book.
const BOOK_TIMES: u32 = 5;

/// The words after the name of the program.
pub type Words = Skip<Args<Global>>;

/// Prints the seconds of a run.
fn show(rt: &HostRuntime, took: Duration) -> io::Result<()> {
    eprintln!(rt; "{}.{:09}", took.as_secs(), took.subsec_nanos())
}

/// Prints the seconds since a start.
fn show_since(rt: &HostRuntime, start: Instant) -> io::Result<()> {
    show(rt, start.elapsed(rt)?)
}

/// The next word as a number.
fn next_number(words: &mut Words) -> Result<u32> {
    number(words.next().as_deref())
}

/// A load of this number of sagas. The next word, if there is one, is the step that fails.
fn load_of(words: &mut Words, sagas: u32, misses: u32) -> Result<Load> {
    let fails = match words.next() {
        Some(word) => Some(u16::try_from(number(Some(word.as_str()))?)?),
        None => None,
    };
    Ok(Load {
        sagas,
        misses,
        fails,
    })
}

/// The parameters of a run, from the words.
fn crew_of(words: &mut Words) -> Result<Crew> {
    let sagas = next_number(words)?;
    let workers = next_number(words)?;
    let shards = next_number(words)?;
    let last = words.next();
    let logs = last.as_deref() == Some("log");
    let micros = match last {
        Some(word) if !logs => number(Some(word.as_str()))?,
        _ => 0,
    };
    Ok(Crew {
        sagas,
        workers,
        shards,
        micros,
        logs,
    })
}

/// Times the subject of a word with a text.
fn time_text<R: Threads + Wait + Sync>(
    threads: &R,
    rt: &HostRuntime,
    words: &mut Words,
    what: &str,
    text: &str,
) -> Result<()> {
    match what {
        "flow" => time_flow(rt, text),
        "plan" => time_plan(rt, text),
        "build" => time_build(rt, text),
        "order" => time_order(rt, text),
        "book" => {
            let sagas = next_number(words)?;
            time_book(rt, text, load_of(words, sagas, 0)?)
        }
        "audit" => {
            let sagas = next_number(words)?;
            let workers = next_number(words)?;
            let misses = next_number(words)?;
            time_audits(threads, rt, text, load_of(words, sagas, misses)?, workers)
        }
        "replay" => {
            let sagas = next_number(words)?;
            time_replays(rt, text, load_of(words, sagas, 0)?)
        }
        "desk" => time_desk(threads, rt, text, next_number(words)?),
        "run" => time_runs(threads, rt, text, crew_of(words)?),
        "log" => time_logs(rt, text),
        _ => bail!("flow, plan, build, order, book, audit, replay, desk, run or log?"),
    }
}

fn main(rt: HostRuntime) -> Result<()> {
    let mut words = env::args(&rt)?.skip(1);
    let what = words.next().context("what?")?;
    let path = words.next().context("a file is missing")?;
    let text = fs::read_to_string(&rt, path.as_str())?;
    time_text(&rt, &rt, &mut words, what.as_str(), text.as_str())
}
