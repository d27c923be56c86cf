//! The order in which a state's blocks are placed, which is that of their wires.

use gutkavu::{Block, Ending, Graph, Machine};

#[cfg(test)]
mod tests;

/// A block of a state, with its number.
pub struct Placed {
    pub number: u32,
    pub block: Block,
}

impl Placed {
    fn leads_to(&self, target: u32) -> bool {
        match self.block.ending {
            Ending::Goto(t) => t == target,
            Ending::Ite { t, f, .. } => t == target || f == target,
            Ending::Halt => false,
        }
    }
}

/// The blocks of a state, from its starter on: always the lowest-numbered whose incoming edges
/// within the state, those to a starter left out, all come from blocks placed before.
pub fn place(graph: &Graph, machine: &Machine, state: u32) -> Vec<Placed> {
    let numbered = |number| graph.block(number).map(|block| Placed { number, block });
    let mut waiting: Vec<Placed> = machine.blocks(state).filter_map(numbered).collect();
    let mut placed = Vec::with_capacity(waiting.len());
    while let Some(index) = ready(&waiting, machine.starter(state)) {
        placed.push(waiting.remove(index));
    }
    placed
}

/// The first of the waiting blocks, which are in rising order, that none of them leads to. Edges to
/// the starter are left out, and those to another state's starter lead to no block that waits.
fn ready(waiting: &[Placed], starter: Option<u32>) -> Option<usize> {
    let awaited = |target| waiting.iter().any(|source| source.leads_to(target));
    waiting.iter().position(|one| starter == Some(one.number) || !awaited(one.number))
}
