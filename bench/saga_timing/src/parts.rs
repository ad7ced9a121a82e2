//! Timing of the planner, of the building of a definition, and of its order.
use crate::cases::{Parts, define, definition_of, read_parts, states_of};
use crate::{TIMES, show_since};
use anyhow::{Result, bail};
use saga_case::{Answer, Case, StepState};
use saga_def::Definition;
use saga_order::Order;
use saga_plan::{plan, plan_counted};
use std::time::Instant;

/// Plans a case once.
fn plan_once(rt: &HostRuntime, case: &Case<'_>) -> Result<()> {
    let start = Instant::now(rt)?;
    let _found = plan(rt.alloc(), case)?;
    Ok(show_since(rt, start)?)
}

/// Prints the cost of a minimum-cost plan for a case and the number of rounds, or that there is no plan, and times the
/// planning.
fn time_case(rt: &HostRuntime, case: &Case<'_>) -> Result<()> {
    let (answer, rounds) = plan_counted(rt.alloc(), case)?;
    match &answer {
        Answer::Plan(plan) => println!(rt; "cost {} rounds {rounds}", plan.cost)?,
        Answer::Blocked(_) => println!(rt; "blocked")?,
    }
    for _ in 0..TIMES {
        plan_once(rt, case)?;
    }
    Ok(())
}

/// The case of a definition and the states of its steps.
fn case_of(definition: &Definition, states: Vec<StepState>) -> Result<Case<'_>> {
    match Case::new(definition, states) {
        Ok(case) => Ok(case),
        Err(_) => bail!("no case"),
    }
}

pub fn time_plan(rt: &HostRuntime, text: &str) -> Result<()> {
    let definition = definition_of(rt.alloc(), text, 0)?;
    let case = case_of(&definition, states_of(rt.alloc(), text)?)?;
    time_case(rt, &case)
}

pub fn time_build(rt: &HostRuntime, text: &str) -> Result<()> {
    println!(rt; "needs {}", definition_of(rt.alloc(), text, 0)?.needs())?;
    for _ in 0..TIMES {
        let Parts { steps, needs, .. } = read_parts(rt.alloc(), text, 0)?;
        let start = Instant::now(rt)?;
        let _made = define(rt.alloc(), steps, needs)?;
        show_since(rt, start)?;
    }
    Ok(())
}

pub fn time_order(rt: &HostRuntime, text: &str) -> Result<()> {
    let definition = definition_of(rt.alloc(), text, 0)?;
    let order = Order::of(rt.alloc(), &definition)?;
    let mut longest = 0;
    for step in 0..order.count() as u16 {
        longest = order.rank(step).max(longest);
    }
    println!(rt; "longest {longest}")?;
    for _ in 0..TIMES {
        let start = Instant::now(rt)?;
        let _found = Order::of(rt.alloc(), &definition)?;
        show_since(rt, start)?;
    }
    Ok(())
}
