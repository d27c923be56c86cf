//! How often a run passed each block and each edge.

use std::collections::BTreeMap;

#[derive(Clone, Debug, Default, PartialEq, Eq)]
pub struct Passes {
    /// How often each block was run, by its number.
    pub blocks: Vec<u64>,
    /// How often each edge was taken, by source and target; edges never taken are left out. Two
    /// edges between the same blocks count as one.
    pub edges: BTreeMap<(u32, u32), u64>,
}

impl Passes {
    /// None yet, of a graph of so many blocks.
    pub fn new(blocks: u32) -> Passes {
        Passes { blocks: vec![0; blocks as usize], edges: BTreeMap::new() }
    }

    /// Adds a cycle: the blocks that it ran, one after another, and the block that it came to; none
    /// where it halted.
    pub fn add(&mut self, path: &[u32], next: Option<u32>) {
        let targets = path.iter().skip(1).copied().map(Some).chain([next]);
        for (&source, target) in path.iter().zip(targets) {
            self.blocks[source as usize] += 1;
            if let Some(target) = target {
                *self.edges.entry((source, target)).or_insert(0) += 1;
            }
        }
    }

    /// How often a block was run.
    pub fn of_block(&self, block: u32) -> u64 {
        self.blocks.get(block as usize).copied().unwrap_or(0)
    }

    /// How often the edges between two blocks were taken.
    pub fn of_edge(&self, source: u32, target: u32) -> u64 {
        self.edges.get(&(source, target)).copied().unwrap_or(0)
    }
}
