//! Starters found another way, and paper 01's procedure step by step.

mod common;

use common::many_graphs;
use reference::block_set::BlockSet;
use reference::fit::Flow;
use reference::graph::Graph;
use reference::grouping::{group, Tour};
use std::collections::{BTreeMap, BTreeSet};

#[test]
fn starters_are_the_iterated_dominance_frontier() {
    for graph in many_graphs(11, 2_500) {
        let starters = group(&graph).starters;
        let set: BlockSet = starters.iter().copied().collect();
        assert_eq!(set.members().count(), starters.len());
        assert_eq!(set, Flow::of(&graph).least_by_frontiers(), "{graph:?}");
    }
}

#[test]
fn every_block_has_one_starter() {
    for graph in many_graphs(12, 2_500) {
        let (grouping, flow) = (group(&graph), Flow::of(&graph));
        let starters = grouping.starters.iter().copied().collect();
        let mut count = 0;
        for (state, &starter) in grouping.starters.iter().enumerate() {
            let owned = flow.reached(starters, starter).with(starter);
            assert_eq!(owned, grouping.blocks_of(state).into_iter().collect());
            count += owned.members().count();
        }
        assert_eq!(count, Tour::of(&graph).reachable().len());
        assert_eq!(count, grouping.state_of.len());
    }
}

/// Paper 01's three steps as it words them, recursive, with a path.
#[derive(Default)]
struct Steps {
    visited: BTreeSet<usize>,
    path: Vec<usize>,
    starters: Vec<usize>,
    state: BTreeMap<usize, usize>,
}

impl Steps {
    fn detect_loops(&mut self, graph: &Graph, block: usize) {
        if self.path.contains(&block) && !self.starters.contains(&block) {
            self.starters.push(block);
        }
        if !self.visited.insert(block) {
            return;
        }
        self.path.push(block);
        for next in graph.successors(block) {
            self.detect_loops(graph, next);
        }
        self.path.pop();
    }

    fn populate(&mut self, graph: &Graph, block: usize, state: usize) {
        let other = self.starters.contains(&block) && self.starters[state] != block;
        if other || self.state.contains_key(&block) {
            return;
        }
        self.state.insert(block, state);
        for next in graph.successors(block) {
            self.populate(graph, next, state);
        }
    }

    /// True when a starter was added, which ends everything under way.
    fn detect_illegal(&mut self, graph: &Graph, block: usize) -> bool {
        if !self.visited.insert(block) {
            return false;
        }
        for next in graph.successors(block) {
            if self.state[&block] != self.state[&next] && !self.starters.contains(&next) {
                self.starters.push(next);
                return true;
            }
            if self.detect_illegal(graph, next) {
                return true;
            }
        }
        false
    }

    fn run(graph: &Graph) -> Steps {
        let mut steps = Steps { starters: vec![0], ..Steps::default() };
        steps.detect_loops(graph, 0);
        loop {
            steps.state.clear();
            for state in 0..steps.starters.len() {
                steps.populate(graph, steps.starters[state], state);
            }
            steps.visited.clear();
            if !steps.detect_illegal(graph, 0) {
                return steps;
            }
        }
    }
}

#[test]
fn grouping_agrees_with_the_steps() {
    for graph in many_graphs(13, 4_000) {
        let (steps, grouping) = (Steps::run(&graph), group(&graph));
        assert_eq!(steps.starters, grouping.starters);
        assert_eq!(steps.state, grouping.state_of);
    }
}
