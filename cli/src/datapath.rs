//! What each wire of a state is for.

use crate::edges::{self, Edge, Exit};
use crate::placement::{self, Placed};
use gutkavu::{Ending, Graph, Instruction, Machine};
use serde::{Serialize, Serializer};
use std::fmt::Display;

#[cfg(test)]
mod tests;

/// What a wire is for. In JSON it is named in the field `role`, and has its other fields beside.
#[derive(Clone, Copy, Debug, PartialEq, Eq, Hash, Serialize)]
#[serde(tag = "role", rename_all = "snake_case")]
pub enum Role {
    /// The arrival of the starter, which is run in every cycle of its state.
    Start,
    /// The arrival of a block by its edges so far; this edge is one after the first.
    Join { edge: Edge },
    /// A register on arrival by the edges so far.
    JoinRegister { edge: Edge, register: u32 },
    /// The word that an instruction writes.
    Instruction {
        index: usize,
        #[serde(serialize_with = "as_line")]
        instruction: Instruction,
    },
    /// The comparison of an `ite`.
    Comparison {
        #[serde(serialize_with = "as_line")]
        ending: Ending,
    },
    /// Whether an edge of an `ite` is taken.
    Branch { edge: Edge },
    /// The next state of an edge that ends the cycle; none for a halt.
    Exit { edge: Edge, exit_to: Option<u32> },
    /// The next state by the exits so far; this edge is one after the first.
    ExitState { edge: Edge },
    /// A register at the end of the cycle by the exits so far.
    ExitRegister { edge: Edge, register: u32 },
}

/// As the line of the text that it prints as.
fn as_line<S: Serializer>(part: &impl Display, serializer: S) -> Result<S::Ok, S::Error> {
    serializer.collect_str(part)
}

/// A wire's role, and the block that the wire is made for; of an exit, the block that it leaves.
#[derive(Clone, Copy, Debug, PartialEq, Eq, Hash, Serialize)]
pub struct Owner {
    pub block: u32,
    #[serde(flatten)]
    pub role: Role,
}

/// The owner of each wire of a state, in the order of the wires.
pub fn owners(graph: &Graph, machine: &Machine, state: u32) -> Vec<Owner> {
    let placed = placement::place(graph, machine, state);
    let edges = edges::edges(&placed);
    let mut owners = Vec::new();
    for one in &placed {
        let roles = match machine.starter(state) == Some(one.number) {
            true => vec![Role::Start],
            false => joins(&edges, one.number, graph.registers()),
        };
        let roles = roles.into_iter().chain(instructions(one)).chain(branches(one, &edges));
        owners.extend(roles.map(|role| Owner { block: one.number, role }));
    }
    owners.extend(exits(&edges::exits(&edges, machine), graph.registers()));
    owners
}

/// Each incoming edge after the first adds to the arrival, then to each register.
fn joins(edges: &[Edge], block: u32, registers: u32) -> Vec<Role> {
    let incoming = edges.iter().filter(|edge| edge.to == Some(block));
    let joined = incoming.skip(1).flat_map(|&edge| {
        let chosen = (0..registers).map(move |register| Role::JoinRegister { edge, register });
        [Role::Join { edge }].into_iter().chain(chosen)
    });
    joined.collect()
}

fn instructions(placed: &Placed) -> impl Iterator<Item = Role> + '_ {
    let numbered = placed.block.instructions.iter().enumerate();
    numbered.map(|(index, &instruction)| Role::Instruction { index, instruction })
}

/// Of an `ite` its comparison, then its edges, true first.
fn branches(placed: &Placed, edges: &[Edge]) -> Vec<Role> {
    let ending = placed.block.ending;
    let Ending::Ite { .. } = ending else { return Vec::new() };
    let leaving = edges.iter().filter(|edge| edge.from == placed.number);
    let taken = leaving.map(|&edge| Role::Branch { edge });
    [Role::Comparison { ending }].into_iter().chain(taken).collect()
}

/// Each exit gives its next state; each after the first adds to the next state, then to each
/// register, before the next one does.
fn exits(exits: &[Exit], registers: u32) -> Vec<Owner> {
    let mut owners = Vec::new();
    for (index, &Exit { edge, next }) in exits.iter().enumerate() {
        let mut roles = vec![Role::Exit { edge, exit_to: next }];
        if index > 0 {
            roles.push(Role::ExitState { edge });
            roles.extend((0..registers).map(|register| Role::ExitRegister { edge, register }));
        }
        owners.extend(roles.into_iter().map(|role| Owner { block: edge.from, role }));
    }
    owners
}
