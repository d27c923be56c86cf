//! The order in which the blocks of a state are placed: by looking, as paper 01 words it, and by
//! waiting counts (paper 02, R-3).

use crate::graph::Graph;
use crate::grouping::Grouping;
use std::collections::{BTreeMap, BTreeSet};

/// Whether every in-state edge to the block comes from a placed block.
fn is_ready(graph: &Graph, grouping: &Grouping, waiting: &BTreeSet<usize>, block: usize) -> bool {
    let is_starter = grouping.starters.contains(&block);
    is_starter || !waiting.iter().any(|&other| graph.successors(other).contains(&block))
}

/// Looks through the waiting blocks for the lowest-numbered that is ready.
pub fn by_looking(graph: &Graph, grouping: &Grouping, state: usize) -> Vec<usize> {
    let mut waiting = grouping.blocks_of(state);
    let mut order = Vec::new();
    // Without its starters no part of a grouped graph has a cycle, so some
    // waiting block is always ready.
    while let Some(&block) = waiting.iter().find(|&&n| is_ready(graph, grouping, &waiting, n)) {
        waiting.remove(&block);
        order.push(block);
    }
    debug_assert!(waiting.is_empty());
    order
}

/// An edge within a state, to a block that is no starter.
#[derive(Clone, Copy, Debug, PartialEq, Eq, PartialOrd, Ord)]
pub struct Edge {
    pub source: usize,
    /// Which edge of the source: 0 for true and goto, 1 for false.
    pub way: usize,
    pub target: usize,
}

/// The unplaced blocks, each with its count. A count that is lowered too often is below 0.
pub type Counts = BTreeMap<usize, i64>;

/// A block chosen, and what stood before that.
#[derive(Clone, Debug, PartialEq, Eq)]
pub struct Choice {
    pub counts: Counts,
    pub block: usize,
}

/// The choices in order, and the edges that lowered a count, in order.
#[derive(Clone, Debug, Default, PartialEq, Eq)]
pub struct Placement {
    pub choices: Vec<Choice>,
    pub lowerings: Vec<Edge>,
}

impl Placement {
    pub fn order(&self) -> Vec<usize> {
        self.choices.iter().map(|choice| choice.block).collect()
    }
}

/// The in-state edges of a block, true first. In a finished grouping an edge to a block that is no
/// starter stays in its state.
fn edges_of(graph: &Graph, grouping: &Grouping, source: usize) -> Vec<Edge> {
    let ways = graph.successors(source).into_iter().enumerate();
    let edges = ways.map(|(way, target)| Edge { source, way, target });
    edges.filter(|edge| !grouping.starters.contains(&edge.target)).collect()
}

/// Counts for each block the in-state edges still waiting, and takes the lowest-numbered with none.
pub fn by_counts(graph: &Graph, grouping: &Grouping, state: usize) -> Placement {
    let mut counts: Counts = grouping.blocks_of(state).iter().map(|&block| (block, 0)).collect();
    for block in grouping.blocks_of(state) {
        for edge in edges_of(graph, grouping, block) {
            counts.entry(edge.target).and_modify(|count| *count += 1);
        }
    }
    let mut placement = Placement::default();
    while let Some((&block, _)) = counts.iter().find(|(_, &count)| count == 0) {
        placement.choices.push(Choice { counts: counts.clone(), block });
        counts.remove(&block);
        for edge in edges_of(graph, grouping, block) {
            counts.entry(edge.target).and_modify(|count| *count -= 1);
            placement.lowerings.push(edge);
        }
    }
    placement
}
