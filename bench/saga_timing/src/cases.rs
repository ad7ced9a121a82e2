//! Cases as texts.
use anyhow::{Context, Result, bail};
use saga_case::StepState;
use saga_def::{Definition, Need, Price, Step, Text};
use std::alloc::Global;
use std::str::SplitWhitespace;

/// The words of a line.
pub type Words<'a> = SplitWhitespace<'a>;

/// The contents of a text: the parts of a definition, and the states of its steps.
#[derive(Drop)]
pub struct Parts {
    pub steps: Vec<Step>,
    pub needs: Vec<Need>,
    pub states: Vec<StepState>,
}

/// Reads a text. It has a line `s STATE RUN UNDO SKIP KEEP` for each step, each of which may be missed `misses` times,
/// and a line `n STEP ON` for each need. Steps are numbered from 0.
pub fn read_parts(alloc: Global, text: &str, misses: u32) -> Result<Parts> {
    let mut parts = Parts {
        steps: Vec::new(alloc),
        needs: Vec::new(alloc),
        states: Vec::new(alloc),
    };
    for line in text.lines() {
        read_line(alloc, &mut parts, line, misses)?;
    }
    Ok(parts)
}

/// Reads a line, and appends its contents to the parts.
fn read_line(alloc: Global, parts: &mut Parts, line: &str, misses: u32) -> Result<()> {
    let mut words = line.split_whitespace();
    match words.next() {
        Some("s") => read_step(alloc, parts, &mut words, misses),
        Some("n") => Ok(parts.needs.push(read_need(&mut words)?)?),
        _ => Ok(()),
    }
}

/// Reads a step, and appends it and its state to the parts.
fn read_step(alloc: Global, parts: &mut Parts, words: &mut Words<'_>, misses: u32) -> Result<()> {
    parts.states.push(state(words.next())?)?;
    let prices = read_prices(words)?;
    let name = format!(in alloc; "s{}", parts.steps.len())?;
    parts.steps.push(step(name, prices, misses))?;
    Ok(())
}

/// Reads the costs of a step: run, undo, skip, keep.
fn read_prices(words: &mut Words<'_>) -> Result<[Price; 4]> {
    let run = price(words.next())?;
    let undo = price(words.next())?;
    let skip = price(words.next())?;
    let keep = price(words.next())?;
    Ok([run, undo, skip, keep])
}

/// Reads a need.
fn read_need(words: &mut Words<'_>) -> Result<Need> {
    let step = number(words.next())?;
    let on = number(words.next())?;
    Ok(Need { step, on })
}

/// The step with this name and these costs, which may be missed `misses` times.
fn step(name: String, prices: [Price; 4], misses: u32) -> Step {
    let [run, undo, skip, keep] = prices;
    Step {
        name: Text::new(name),
        run,
        undo,
        skip,
        keep,
        tries: u64::from(misses) + 1,
        undo_tries: 1,
    }
}

/// The definition with these parts.
pub fn define(alloc: Global, steps: Vec<Step>, needs: Vec<Need>) -> Result<Definition> {
    let name = Text::new(format!(in alloc; "case")?);
    match Definition::build(alloc, name, steps, needs) {
        Ok(definition) => Ok(definition),
        Err(fault) => bail!("{}", fault.word()),
    }
}

/// The definition in a text. Each of its steps may be missed `misses` times.
pub fn definition_of(alloc: Global, text: &str, misses: u32) -> Result<Definition> {
    let Parts { steps, needs, .. } = read_parts(alloc, text, misses)?;
    define(alloc, steps, needs)
}

/// The states of the steps in a text.
pub fn states_of(alloc: Global, text: &str) -> Result<Vec<StepState>> {
    let Parts { states, .. } = read_parts(alloc, text, 0)?;
    Ok(states)
}

/// A shelf with only this definition.
pub fn shelf_of(alloc: Global, text: &str, misses: u32) -> Result<Vec<Definition>> {
    let mut shelf = Vec::new(alloc);
    shelf.push(definition_of(alloc, text, misses)?)?;
    Ok(shelf)
}

/// A state by its word.
fn state(word: Option<&str>) -> Result<StepState> {
    match word {
        Some("waiting") => Ok(StepState::Waiting),
        Some("committed") => Ok(StepState::Committed),
        Some("failed") => Ok(StepState::Failed),
        _ => bail!("no state"),
    }
}

/// The number of a node or of a step.
pub fn number(word: Option<&str>) -> Result<u32> {
    let number = word
        .context("a number is missing")?
        .parse::<u32>()
        .context("a number")?;
    Ok(number)
}

/// A capacity, or the amount of a cost.
pub fn amount(word: Option<&str>) -> Result<u64> {
    let amount = word
        .context("an amount is missing")?
        .parse::<u64>()
        .context("an amount")?;
    Ok(amount)
}

/// A cost.
fn price(word: Option<&str>) -> Result<Price> {
    Ok(Price::Of(amount(word)?))
}
