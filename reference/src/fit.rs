//! Fit sets of starters (paper 02, R-13): the definition, the candidates, the least by frontiers.

use crate::block_set::BlockSet;
use crate::graph::Graph;
use crate::grouping::Tour;

/// Whose paths count: a set may hold unreachable blocks. One more path can only make a set unfit,
/// so any reading between these two refuses what the first refuses and admits what the second
/// admits.
#[derive(Clone, Copy, Debug, PartialEq, Eq)]
pub enum Reading {
    /// Paper 01: unreachable blocks and their edges count for nothing.
    ReachableMembers,
    AllMembers,
}

/// What fitness asks of a graph.
pub struct Flow {
    successors: Vec<BlockSet>,
    pub reachable: BlockSet,
    pub loop_starters: BlockSet,
}

impl Flow {
    pub fn of(graph: &Graph) -> Flow {
        let tour = Tour::of(graph);
        let blocks = 0..graph.blocks.len();
        Flow {
            successors: blocks.map(|n| graph.successors(n).into_iter().collect()).collect(),
            reachable: tour.reachable().into_iter().collect(),
            loop_starters: tour.loop_starters().into_iter().collect(),
        }
    }

    pub fn blocks(&self) -> usize {
        self.successors.len()
    }

    /// The blocks outside the set that the starter reaches through blocks outside it.
    pub fn reached(&self, set: BlockSet, starter: usize) -> BlockSet {
        let mut reached = BlockSet::default();
        let mut waiting = self.successors[starter].without(set);
        while let Some(block) = waiting.members().next() {
            reached = reached.with(block);
            waiting = waiting.union(self.successors[block]).without(set).without(reached);
        }
        reached
    }

    /// Whether it holds every starter of loop detection and each reachable block outside it is
    /// reached, through blocks outside it, from one starter of the set and no other.
    pub fn is_fit(&self, set: BlockSet, reading: Reading) -> bool {
        let counted = match reading {
            Reading::ReachableMembers => set.intersection(self.reachable),
            Reading::AllMembers => set,
        };
        let reached: Vec<BlockSet> = counted.members().map(|n| self.reached(set, n)).collect();
        let starters_of = |block| reached.iter().filter(|blocks| blocks.contains(block)).count();
        set.holds(self.loop_starters)
            && self.reachable.without(set).members().all(|block| starters_of(block) == 1)
    }

    /// Every set, of reachable blocks and others, that holds the loop starters: no other is fit.
    pub fn candidates(&self) -> impl Iterator<Item = BlockSet> {
        self.loop_starters.supersets(self.blocks())
    }

    /// The loop starters, with all blocks of their iterated dominance frontier.
    pub fn least_by_frontiers(&self) -> BlockSet {
        let dominance = Dominance::of(self);
        let mut found = self.loop_starters;
        loop {
            let frontiers = found.members().map(|block| dominance.frontier(block));
            let more = frontiers.fold(found, BlockSet::union);
            if more == found {
                return found;
            }
            found = more;
        }
    }

    fn predecessors(&self, block: usize) -> BlockSet {
        let leads = |&source: &usize| self.successors[source].contains(block);
        self.reachable.members().filter(leads).collect()
    }
}

/// For each block its reachable predecessors, and the blocks on every path to it.
struct Dominance {
    reachable: BlockSet,
    predecessors: Vec<BlockSet>,
    dominators: Vec<BlockSet>,
}

impl Dominance {
    /// Dominators by repeated intersection over predecessors.
    fn of(flow: &Flow) -> Dominance {
        let predecessors: Vec<_> = (0..flow.blocks()).map(|n| flow.predecessors(n)).collect();
        let mut dominators = vec![flow.reachable; flow.blocks()];
        dominators[0] = BlockSet::default().with(0);
        loop {
            let old = dominators.clone();
            for block in flow.reachable.members().filter(|&block| block != 0) {
                let above = predecessors[block].members().map(|source| dominators[source]);
                dominators[block] = above.fold(flow.reachable, BlockSet::intersection).with(block);
            }
            if dominators == old {
                return Dominance { reachable: flow.reachable, predecessors, dominators };
            }
        }
    }

    /// Blocks one edge away from being dominated by the block.
    fn frontier(&self, block: usize) -> BlockSet {
        let dominates = |other: usize| self.dominators[other].contains(block);
        let is_join = |&join: &usize| {
            let strictly = join != block && dominates(join);
            !strictly && self.predecessors[join].members().any(dominates)
        };
        self.reachable.members().filter(is_join).collect()
    }
}
