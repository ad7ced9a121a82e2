//! Networks as texts, in the format of the DIMACS challenge for maximum flows.
ghost use Rattle.std.specs.Prelude.{◌^◌, ◌<◌};

use crate::cases::{Words, amount, number};
use anyhow::{Context, Result, bail};
use saga_flow::{Arc, Cap};
use std::alloc::Global;

/// The contents of a text: the number of nodes, and the arcs between them, with source and sink as nodes 0 and 1.
#[derive(Drop)]
pub struct Network {
    pub nodes: u32,
    pub arcs: Vec<Arc>,
}

/// The source and the sink, numbered as in the text.
#[derive(Clone, Copy)]
struct Ends {
    source: Option<u32>,
    sink: Option<u32>,
}

/// The contents of a line. An arc has the node numbers of the text.
#[derive(Clone, Copy)]
enum Line {
    Nodes(u32),
    Source(u32),
    Sink(u32),
    Arc(u32, u32, u64),
    Comment,
}

/// Reads a line `p max NODES ARCS`, `n NODE s`, `n NODE t` or `a FROM TO CAPACITY`.
fn read_line(line: &str) -> Result<Line> {
    let mut words = line.split_whitespace();
    match words.next() {
        Some("p") => read_nodes(&mut words),
        Some("n") => read_end(&mut words),
        Some("a") => read_arc(&mut words),
        _ => Ok(Line::Comment),
    }
}

fn read_nodes(words: &mut Words<'_>) -> Result<Line> {
    words.next().context("max")?;
    Ok(Line::Nodes(number(words.next())?))
}

fn read_end(words: &mut Words<'_>) -> Result<Line> {
    let node = number(words.next())?;
    Ok(match words.next() {
        Some("s") => Line::Source(node),
        _ => Line::Sink(node),
    })
}

fn read_arc(words: &mut Words<'_>) -> Result<Line> {
    let from = number(words.next())?;
    let to = number(words.next())?;
    Ok(Line::Arc(from, to, amount(words.next())?))
}

/// Reads a text: a line `p max NODES ARCS`, lines `n NODE s` and `n NODE t`, and then a line `a FROM TO CAPACITY` for
/// each arc. Nodes are numbered from 1. Lines that start otherwise are comments.
pub fn read_network(alloc: Global, text: &str) -> Result<Network> {
    let mut nodes = 0;
    let mut ends = Ends {
        source: None,
        sink: None,
    };
    let mut arcs = Vec::new(alloc);
    for line in text.lines() {
        match read_line(line)? {
            Line::Nodes(count) => nodes = count,
            Line::Source(node) => ends.source = Some(node),
            Line::Sink(node) => ends.sink = Some(node),
            Line::Arc(from, to, most) => arcs.push(arc(ends, from, to, most)?)?,
            Line::Comment => {}
        }
    }
    Ok(Network { nodes, arcs })
}

/// The arc between two nodes of the text.
fn arc(ends: Ends, from: u32, to: u32, most: u64) -> Result<Arc> {
    Ok(Arc {
        from: renumbered(ends, from)?,
        to: renumbered(ends, to)?,
        cap: Cap::Of(most),
    })
}

/// The number of a node if the source is 0, the sink is 1, and the others keep their order.
fn renumbered(ends: Ends, node: u32) -> Result<u32> {
    let source = ends.source.context("no source")?;
    let sink = ends.sink.context("no sink")?;
    if node == 0 || node > 1 << 30 {
        bail!("no node {node}");
    }
    if node == source {
        return Ok(0);
    }
    if node == sink {
        return Ok(1);
    }
    let after_source = if source < node { 1 } else { 0 };
    let after_sink = if sink < node { 1 } else { 0 };
    Ok(node + 1 - after_source - after_sink)
}
