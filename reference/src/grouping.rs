//! Grouping of blocks into states: loops, population, illegal edges.

use crate::graph::Graph;
use std::collections::{BTreeMap, BTreeSet};

/// Starters in order of creation, and the state of each reachable block.
#[derive(Clone, Debug, PartialEq, Eq)]
pub struct Grouping {
    pub starters: Vec<usize>,
    pub state_of: BTreeMap<usize, usize>,
}

impl Grouping {
    pub fn blocks_of(&self, state: usize) -> BTreeSet<usize> {
        let members = self.state_of.iter().filter(|&(_, &owner)| owner == state);
        members.map(|(&block, _)| block).collect()
    }

    pub fn state_started_by(&self, block: usize) -> Option<usize> {
        self.starters.iter().position(|&starter| starter == block)
    }
}

/// One depth-first visit from block 0: every edge in the order it is met,
/// and for each block the clock when it was entered and left.
#[derive(Default)]
pub struct Tour {
    pub edges: Vec<(usize, usize)>,
    entered: BTreeMap<usize, usize>,
    left: BTreeMap<usize, usize>,
    clock: usize,
}

impl Tour {
    pub fn of(graph: &Graph) -> Tour {
        let mut tour = Tour::default();
        tour.visit(graph, 0);
        tour
    }

    fn visit(&mut self, graph: &Graph, block: usize) {
        self.clock += 1;
        self.entered.insert(block, self.clock);
        for next in graph.successors(block) {
            self.edges.push((block, next));
            if !self.entered.contains_key(&next) {
                self.visit(graph, next);
            }
        }
        self.clock += 1;
        self.left.insert(block, self.clock);
    }

    /// A target on the path to the source was entered no later, left no earlier.
    fn retreats(&self, source: usize, target: usize) -> bool {
        self.entered[&target] <= self.entered[&source] && self.left[&target] >= self.left[&source]
    }

    /// Block 0, then the targets of retreating edges, in order of finding.
    pub fn loop_starters(&self) -> Vec<usize> {
        let mut starters = vec![0];
        for &(source, target) in &self.edges {
            if self.retreats(source, target) && !starters.contains(&target) {
                starters.push(target);
            }
        }
        starters
    }

    pub fn reachable(&self) -> BTreeSet<usize> {
        self.entered.keys().copied().collect()
    }
}

/// Lets each state in turn grow to all blocks it may take.
/// The set grown does not depend on the order of growth.
fn populate(graph: &Graph, starters: &[usize]) -> BTreeMap<usize, usize> {
    let mut state_of = BTreeMap::new();
    for (state, &starter) in starters.iter().enumerate() {
        let mut frontier = BTreeSet::from([starter]);
        while let Some(block) = frontier.pop_first() {
            state_of.insert(block, state);
            let next = graph.successors(block).into_iter();
            frontier.extend(
                next.filter(|block| !starters.contains(block) && !state_of.contains_key(block)),
            );
        }
    }
    state_of
}

/// The target of the first edge, in the order of the visit, that enters
/// another state beside its starter.
fn illegal_target(tour: &Tour, grouping: &Grouping) -> Option<usize> {
    let state = &grouping.state_of;
    let illegal = tour.edges.iter().find(|(source, target)| {
        state[source] != state[target] && !grouping.starters.contains(target)
    });
    illegal.map(|&(_, target)| target)
}

/// Adds starters until no edge is illegal. The visit does not depend on the
/// states, so one tour serves every detection.
pub fn group(graph: &Graph) -> Grouping {
    let tour = Tour::of(graph);
    let mut starters = tour.loop_starters();
    loop {
        let state_of = populate(graph, &starters);
        let grouping = Grouping { starters: starters.clone(), state_of };
        match illegal_target(&tour, &grouping) {
            Some(target) => starters.push(target),
            None => return grouping,
        }
    }
}
