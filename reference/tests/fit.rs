//! Fit sets of starters by trying every set; and that other definitions give other sets.

mod common;

use common::{every_small_graph, graph_of, many_graphs};
use reference::block_set::BlockSet;
use reference::fit::{Flow, Reading};
use reference::generate::examples::{P10, P11, P12, P7, P9};
use reference::generate::graphs;
use reference::graph::Graph;
use reference::grouping::group;
use reference::random::Random;

const READINGS: [Reading; 2] = [Reading::ReachableMembers, Reading::AllMembers];

fn set(blocks: &[usize]) -> BlockSet {
    blocks.iter().copied().collect()
}

fn flow_of(text: &str) -> Flow {
    Flow::of(&graph_of(text))
}

fn fit_sets(flow: &Flow, reading: Reading) -> Vec<BlockSet> {
    flow.candidates().filter(|&set| flow.is_fit(set, reading)).collect()
}

/// The set contained in all the others, where there is one.
fn least(sets: &[BlockSet]) -> Option<BlockSet> {
    sets.iter().copied().find(|&one| sets.iter().all(|other| other.holds(one)))
}

/// The starters are the least fit set; counting more members admits fewer sets.
fn check(graph: &Graph) {
    let (flow, starters) = (Flow::of(graph), set(&group(graph).starters));
    let [by_reachable, by_all] = READINGS.map(|reading| fit_sets(&flow, reading));
    assert_eq!(least(&by_reachable), Some(starters), "{graph:?}");
    assert_eq!(least(&by_all), Some(starters), "{graph:?}");
    assert!(by_all.iter().all(|set| by_reachable.contains(set)), "{graph:?}");
    assert_eq!(flow.least_by_frontiers(), starters, "{graph:?}");
}

#[test]
fn worked_examples() {
    let expected = [
        (P7, set(&[0, 1]), 16, 16),
        (P9, set(&[0, 1, 3, 4]), 2, 2),
        (P10, set(&[0, 1, 2]), 2, 2),
        (P11, set(&[0]), 1, 1),
        (P12, set(&[0]), 4, 3),
    ];
    for (text, starters, by_reachable, by_all) in expected {
        let graph = graph_of(text);
        assert_eq!(set(&group(&graph).starters), starters);
        assert_eq!(fit_sets(&Flow::of(&graph), Reading::ReachableMembers).len(), by_reachable);
        assert_eq!(fit_sets(&Flow::of(&graph), Reading::AllMembers).len(), by_all);
        check(&graph);
    }
    let of_p9 = fit_sets(&flow_of(P9), Reading::ReachableMembers);
    assert_eq!(of_p9, [set(&[0, 1, 3, 4]), set(&[0, 1, 2, 3, 4])]);
}

#[test]
fn random_graphs() {
    let mut random = Random::new(31);
    for _ in 0..1_500 {
        check(&graphs::small_graph(&mut random));
    }
}

#[test]
fn every_graph_of_at_most_four_blocks() {
    every_small_graph().for_each(|graph| check(&graph));
}

/// On graphs of any size the starters are fit, and are not without any one of them.
#[test]
fn no_starter_can_be_left_out() {
    for graph in many_graphs(32, 1_000) {
        let (flow, starters) = (Flow::of(&graph), set(&group(&graph).starters));
        for reading in READINGS {
            assert!(flow.is_fit(starters, reading), "{graph:?}");
            let mut fewer = starters.members().map(|block| starters.without(set(&[block])));
            assert!(fewer.all(|set| !flow.is_fit(set, reading)), "{graph:?}");
        }
    }
}

/// The unreachable block 2 of P12 reaches block 1, so {0, 2} is fit in one reading only.
#[test]
fn readings_differ() {
    let flow = flow_of(P12);
    assert!(flow.is_fit(set(&[0, 2]), Reading::ReachableMembers));
    assert!(!flow.is_fit(set(&[0, 2]), Reading::AllMembers));
    assert!(flow.is_fit(set(&[0, 1, 2]), Reading::AllMembers));
}

/// Block 2 reaches block 1 through block 3, which is unreachable as well.
#[test]
fn readings_differ_through_unreachable_blocks() {
    let flow =
        flow_of("graph,4,1\nblock,0\ngoto,1\nblock,1\nhalt\nblock,2\ngoto,3\nblock,3\ngoto,1\n");
    assert!(flow.is_fit(set(&[0, 2]), Reading::ReachableMembers));
    assert!(!flow.is_fit(set(&[0, 2]), Reading::AllMembers));
}

/// A definition of fitness, right or wrong: which sets may be fit, which blocks a starter reaches,
/// and how many starters may reach a block.
struct Definition {
    sets: fn(&Flow) -> Vec<BlockSet>,
    reached: fn(&Flow, BlockSet, usize) -> BlockSet,
    right: fn(usize) -> bool,
}

const RIGHT: Definition = Definition {
    sets: |flow| flow.candidates().collect(),
    reached: Flow::reached,
    right: |starters| starters == 1,
};

impl Definition {
    fn fit_sets(&self, text: &str) -> Vec<BlockSet> {
        let flow = &flow_of(text);
        let is_fit = |set: &BlockSet| {
            let starters = |block: usize| {
                let reach = |&n: &usize| (self.reached)(flow, *set, n).contains(block);
                set.members().filter(reach).count()
            };
            let mut outside = flow.reachable.without(*set).members();
            outside.all(|block| (self.right)(starters(block)))
        };
        (self.sets)(flow).into_iter().filter(is_fit).collect()
    }
}

#[test]
fn the_right_definition() {
    for text in [P7, P9, P10, P11, P12] {
        assert_eq!(RIGHT.fit_sets(text), fit_sets(&flow_of(text), Reading::AllMembers));
    }
}

/// Without "and no other" the loop starters alone are fit.
#[test]
fn other_starters_must_not_reach_a_block() {
    let wrong = Definition { right: |starters| starters >= 1, ..RIGHT };
    assert_eq!(least(&RIGHT.fit_sets(P9)), Some(set(&[0, 1, 3, 4])));
    assert_eq!(least(&wrong.fit_sets(P9)), Some(set(&[0, 1])));
}

/// Where paths may pass through the set, block 0 of P7 reaches all that block 1 does.
#[test]
fn paths_must_stay_outside_the_set() {
    let wrong = Definition { reached: |flow, _, n| flow.reached(BlockSet::default(), n), ..RIGHT };
    assert_eq!(least(&RIGHT.fit_sets(P7)), Some(set(&[0, 1])));
    assert_eq!(wrong.fit_sets(P7), [set(&[0, 1, 2, 3, 4, 5])]);
}

/// Without the loop starters the entry alone is fit for P7, and a loop through it has no least set.
#[test]
fn loop_starters_must_be_held() {
    let all = |flow: &Flow| BlockSet::default().supersets(flow.blocks()).collect();
    let wrong = Definition { sets: all, ..RIGHT };
    assert_eq!(least(&wrong.fit_sets(P7)), Some(set(&[0])));
    let circle = "graph,2,1\nblock,0\ngoto,1\nblock,1\ngoto,0\n";
    assert_eq!(least(&RIGHT.fit_sets(circle)), Some(set(&[0])));
    assert_eq!(wrong.fit_sets(circle), [set(&[0]), set(&[1]), set(&[0, 1])]);
    assert_eq!(least(&wrong.fit_sets(circle)), None);
}
