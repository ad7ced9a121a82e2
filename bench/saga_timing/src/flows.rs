//! Timing of the flow.
ghost use Rattle.saga_flow.specs.Network.{IsNetwork};
ghost use Rattle.saga_flow.specs.Reached.{HasUnbounded, Reaches};

use crate::dimacs::{Network, read_network};
use crate::{TIMES, show_since};
use anyhow::{Result, ensure};
use saga_flow::{Flow, Net, largest_counted, unbounded_path};
use std::alloc::{AllocError, Global};
use std::time::Instant;

/// A maximum flow and its rounds, with a new network for each call.
fn flow_anew(alloc: Global, network: &Network) -> Result<(Flow, u64), AllocError>
    requires sound { IsNetwork
        (record { nodes = network.now.nodes; arcs = network.now.arcs.items }) }
    requires apart { Reaches (HasUnbounded network.now.arcs.items) 0 1 → ⊥ }
{
    let arcs = Vec::from_slice(alloc, network.arcs.as_slice())?;
    largest_counted(alloc, &Net::new(network.nodes, arcs))
}

/// Prints the value of a maximum flow and the number of rounds, and times the computation.
fn time_net(rt: &HostRuntime, network: &Network) -> Result<()>
    requires sound { IsNetwork
        (record { nodes = network.now.nodes; arcs = network.now.arcs.items }) }
    requires apart { Reaches (HasUnbounded network.now.arcs.items) 0 1 → ⊥ }
{
    let (flow, rounds) = flow_anew(rt.alloc(), network)?;
    println!(rt; "value {} rounds {rounds}", flow.value)?;
    for _ in 0..TIMES {
        let start = Instant::now(rt)?;
        let _found = flow_anew(rt.alloc(), network)?;
        show_since(rt, start)?;
    }
    Ok(())
}

/// Times the maximum flow of a network, if there is one.
pub fn time_flow(rt: &HostRuntime, text: &str) -> Result<()> {
    let network = read_network(rt.alloc(), text)?;
    ensure!(
        Net::accepts(network.nodes, network.arcs.as_slice()),
        "no net"
    );
    let arcs = Vec::from_slice(rt.alloc(), network.arcs.as_slice())?;
    let net = Net::new(network.nodes, arcs);
    let none = unbounded_path(rt.alloc(), &net)?.is_none();
    ensure!(none, "no greatest flow");
    time_net(rt, &network)
}
