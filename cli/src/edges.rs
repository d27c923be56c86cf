//! The edges of blocks, in the order of their wires.

use crate::placement::Placed;
use gutkavu::{Block, Ending, Machine};
use serde::Serialize;
use std::fmt;

/// A way from a block to another; a halt is one to none.
#[derive(Clone, Copy, Debug, PartialEq, Eq, Hash, Serialize)]
pub struct Edge {
    pub from: u32,
    pub to: Option<u32>,
    /// The value of the comparison that takes it; none where the block does not end in `ite`.
    pub branch: Option<bool>,
}

/// `1 -> 2`, or `5 -> halt`.
impl fmt::Display for Edge {
    fn fmt(&self, f: &mut fmt::Formatter) -> fmt::Result {
        match self.to {
            Some(to) => write!(f, "{} -> {to}", self.from),
            None => write!(f, "{} -> halt", self.from),
        }
    }
}

/// An edge that ends the cycle: one to a starter, or a halt.
#[derive(Clone, Copy, Debug, PartialEq, Eq)]
pub struct Exit {
    pub edge: Edge,
    /// The next state; none for a halt.
    pub next: Option<u32>,
}

impl Exit {
    fn of(edge: Edge, machine: &Machine) -> Option<Exit> {
        let starts = |target: u32| {
            let state = machine.state_of(target);
            state.filter(|&state| machine.starter(state) == Some(target))
        };
        match edge.to {
            Some(target) => starts(target).map(|state| Exit { edge, next: Some(state) }),
            None => Some(Exit { edge, next: None }),
        }
    }
}

/// All edges, by the place of the block that they come from, true first.
pub fn edges(placed: &[Placed]) -> Vec<Edge> {
    placed.iter().flat_map(|placed| leaving(placed.number, &placed.block)).collect()
}

/// Those of one block.
pub fn leaving(from: u32, block: &Block) -> Vec<Edge> {
    let edge = |to, branch| Edge { from, to, branch };
    match block.ending {
        Ending::Goto(t) => vec![edge(Some(t), None)],
        Ending::Ite { t, f, .. } => vec![edge(Some(t), Some(true)), edge(Some(f), Some(false))],
        Ending::Halt => vec![edge(None, None)],
    }
}

/// Those of the edges that end the cycle.
pub fn exits(edges: &[Edge], machine: &Machine) -> Vec<Exit> {
    edges.iter().filter_map(|&edge| Exit::of(edge, machine)).collect()
}
