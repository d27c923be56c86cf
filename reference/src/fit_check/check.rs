//! One graph's starters: fit, contained in every fit set, and those of the dominance frontiers.

use crate::tally::Tally;
use reference::block_set::BlockSet;
use reference::fit::{Flow, Reading};
use reference::graph::Graph;
use reference::grouping::group;

/// On graphs of at most so many blocks every set is tried, at most 2,048 of them.
pub const MOST_ENUMERATED: usize = 12;

/// What is counted, so that a check of nothing shows.
#[derive(Clone, Copy, Debug, PartialEq, Eq, PartialOrd, Ord)]
pub enum Counted {
    Graphs,
    WithUnreachable,
    WithMoreStarters,
    Enumerated,
    Sets,
    SetsLackingStarters,
    FitByReachable,
    FitByAll,
    ReadingsDiffer,
}

impl Counted {
    pub const ALL: [Counted; 9] = [
        Counted::Graphs,
        Counted::WithUnreachable,
        Counted::WithMoreStarters,
        Counted::Enumerated,
        Counted::Sets,
        Counted::SetsLackingStarters,
        Counted::FitByReachable,
        Counted::FitByAll,
        Counted::ReadingsDiffer,
    ];

    pub fn name(self) -> &'static str {
        match self {
            Counted::Graphs => "graphs",
            Counted::WithUnreachable => "graphs with unreachable blocks",
            Counted::WithMoreStarters => "graphs with starters beyond those of loop detection",
            Counted::Enumerated => "graphs on which every set was tried",
            Counted::Sets => "sets tried",
            Counted::SetsLackingStarters => "sets tried that lack a starter",
            Counted::FitByReachable => "sets fit where reachable members count",
            Counted::FitByAll => "sets fit where all members count",
            Counted::ReadingsDiffer => "graphs with a set that only the first admits",
        }
    }
}

/// A set that holds the loop starters, and whether it is fit in both readings.
struct Tried {
    set: BlockSet,
    by_reachable: bool,
    by_all: bool,
}

impl Tried {
    fn of(flow: &Flow, set: BlockSet) -> Tried {
        let by_reachable = flow.is_fit(set, Reading::ReachableMembers);
        Tried { set, by_reachable, by_all: flow.is_fit(set, Reading::AllMembers) }
    }

    fn is_fit(&self) -> bool {
        self.by_reachable || self.by_all
    }
}

/// A fit set that lacks a starter, found by trying every set.
fn fit_without(flow: &Flow, starters: BlockSet, tally: &mut Tally<Counted>) -> Option<BlockSet> {
    let tried: Vec<Tried> = flow.candidates().map(|set| Tried::of(flow, set)).collect();
    let number = |test: &dyn Fn(&Tried) -> bool| tried.iter().filter(|one| test(one)).count();
    let lacks = |one: &Tried| !one.set.holds(starters);
    let only_first = tried.iter().any(|one| one.by_reachable && !one.by_all);
    tally.count(Counted::Enumerated, 1);
    tally.count(Counted::Sets, tried.len());
    tally.count(Counted::SetsLackingStarters, number(&lacks));
    tally.count(Counted::FitByReachable, number(&|one| one.by_reachable));
    tally.count(Counted::FitByAll, number(&|one| one.by_all));
    tally.count(Counted::ReadingsDiffer, usize::from(only_first));
    tried.iter().find(|one| one.is_fit() && lacks(one)).map(|one| one.set)
}

/// What is wrong with the starters that a library answered, a sentence each.
pub fn check(graph: &Graph, found: &[usize], tally: &mut Tally<Counted>) -> Vec<String> {
    let (flow, own) = (Flow::of(graph), group(graph).starters);
    let mut faults = Vec::new();
    if found != own {
        faults.push(format!("the library's starters are {found:?}, the second program's {own:?}"));
    }
    if found.iter().any(|&block| block >= flow.blocks()) {
        return faults;
    }
    let starters: BlockSet = found.iter().copied().collect();
    for reading in [Reading::ReachableMembers, Reading::AllMembers] {
        if !flow.is_fit(starters, reading) {
            faults.push(format!("the library's starters {found:?} are not fit: {reading:?}"));
        }
    }
    let by_frontiers = flow.least_by_frontiers();
    if starters != by_frontiers {
        faults.push(format!("the dominance frontiers give {by_frontiers:?}"));
    }
    let unreachable = flow.reachable.members().count() < flow.blocks();
    tally.count(Counted::Graphs, 1);
    tally.count(Counted::WithUnreachable, usize::from(unreachable));
    tally.count(Counted::WithMoreStarters, usize::from(starters != flow.loop_starters));
    if flow.blocks() <= MOST_ENUMERATED {
        let other = fit_without(&flow, starters, tally);
        faults.extend(other.map(|set| format!("{set:?} is fit and lacks one of {found:?}")));
    }
    faults
}
