//! Placing by waiting counts: the order by looking, counts and lowerings as R-3 words them, and
//! wrong procedures, which are told apart.

mod common;

use common::{every_small_graph, graph_of, many_graphs};
use reference::generate::examples::{P10, P11, P12, P7, P9, SEVEN};
use reference::graph::{Ending, Graph, MAX_BLOCKS};
use reference::grouping::{group, Grouping};
use reference::placement::{by_counts, by_looking, Choice, Counts, Edge, Placement};
use std::collections::{BTreeMap, BTreeSet};

fn every_edge(graph: &Graph) -> Vec<Edge> {
    let mut edges = Vec::new();
    for (source, block) in graph.blocks.iter().enumerate() {
        let edge = |way, target| Edge { source, way, target };
        match block.ending {
            Ending::Goto(t) => edges.push(edge(0, t)),
            Ending::Ite { t, f, .. } => edges.extend([edge(0, t), edge(1, f)]),
            Ending::Halt => {}
        }
    }
    edges
}

/// One state of a graph.
#[derive(Debug)]
struct Scene {
    blocks: BTreeSet<usize>,
    starter: usize,
    /// The placement by looking.
    order: Vec<usize>,
    reachable: BTreeSet<usize>,
    /// Every edge of the graph, those of unreachable blocks included.
    edges: Vec<Edge>,
}

impl Scene {
    fn of(graph: &Graph, grouping: &Grouping, state: usize) -> Scene {
        Scene {
            blocks: grouping.blocks_of(state),
            starter: grouping.starters[state],
            order: by_looking(graph, grouping, state),
            reachable: grouping.state_of.keys().copied().collect(),
            edges: every_edge(graph),
        }
    }

    fn edges(&self, test: impl Fn(&Edge) -> bool) -> Vec<Edge> {
        self.edges.iter().copied().filter(|edge| test(edge)).collect()
    }

    fn is_inside(&self, block: usize) -> bool {
        self.blocks.contains(&block) && block != self.starter
    }

    /// The in-state edges.
    fn inner(&self) -> Vec<Edge> {
        self.edges(|edge| self.blocks.contains(&edge.source) && self.is_inside(edge.target))
    }

    /// The edges back to the state's own starter.
    fn back(&self) -> Vec<Edge> {
        self.edges(|edge| self.blocks.contains(&edge.source) && edge.target == self.starter)
    }

    /// The edges from unreachable blocks to blocks of the state, but not to its starter.
    fn unreachable(&self) -> Vec<Edge> {
        self.edges(|edge| !self.reachable.contains(&edge.source) && self.is_inside(edge.target))
    }

    /// The in-state edges, but of two from one ite to one block only the first.
    fn without_twins(&self) -> Vec<Edge> {
        let twin = |edge: &Edge| edge.way == 1 && self.edges.contains(&Edge { way: 0, ..*edge });
        self.inner().into_iter().filter(|edge| !twin(edge)).collect()
    }

    /// For each unplaced block the number of its in-state edges from unplaced blocks.
    fn counts(&self, unplaced: &BTreeSet<usize>) -> Counts {
        let mut waiting = self.inner();
        waiting.retain(|edge| unplaced.contains(&edge.source));
        let count = |block| waiting.iter().filter(|edge| edge.target == block).count() as i64;
        unplaced.iter().map(|&block| (block, count(block))).collect()
    }
}

/// What can be wrong with a placement.
#[derive(Clone, Copy, Debug, PartialEq, Eq)]
enum Flaw {
    /// It is not the placement by looking: it ends early, or takes other blocks.
    Order,
    /// Before a choice a count is not the number of in-state edges from unplaced blocks.
    Count,
    /// The lowerings are not the in-state edges, each exactly once.
    Lowering,
    /// A lowering takes a count below 0.
    BelowZero,
}

fn counts_hold(scene: &Scene, made: &Placement) -> bool {
    let mut unplaced = scene.blocks.clone();
    made.choices.iter().all(|choice| {
        let counts = scene.counts(&unplaced);
        unplaced.remove(&choice.block) && choice.counts == counts
    })
}

/// Also, they go by the place of their source, true first.
fn lowerings_hold(scene: &Scene, made: &Placement) -> bool {
    let (mut inner, mut lowered) = (scene.inner(), made.lowerings.clone());
    let of_source = |block| inner.iter().copied().filter(move |edge| edge.source == block);
    let by_place: Vec<Edge> = made.order().into_iter().flat_map(of_source).collect();
    let in_order = lowered == by_place;
    inner.sort();
    lowered.sort();
    in_order && lowered == inner
}

/// Lowers the first counts by one edge after another.
fn stays_above(made: &Placement) -> bool {
    let mut counts = made.choices.first().map_or(Counts::new(), |first| first.counts.clone());
    made.lowerings.iter().all(|edge| {
        let count = counts.entry(edge.target).or_default();
        *count -= 1;
        *count >= 0
    })
}

fn flaws(scene: &Scene, made: &Placement) -> Vec<Flaw> {
    let holds = [
        (Flaw::Order, made.order() == scene.order),
        (Flaw::Count, counts_hold(scene, made)),
        (Flaw::Lowering, lowerings_hold(scene, made)),
        (Flaw::BelowZero, stays_above(made)),
    ];
    holds.into_iter().filter(|(_, holds)| !holds).map(|(flaw, _)| flaw).collect()
}

/// A procedure that places by counts, right or wrong: the edges counted, those that lower a count
/// when their source is placed, and which of the ready blocks, in rising order, is taken.
struct Procedure {
    counted: fn(&Scene) -> Vec<Edge>,
    lowered: fn(&Scene) -> Vec<Edge>,
    taken: fn(&[usize]) -> Option<&usize>,
}

const RIGHT: Procedure =
    Procedure { counted: Scene::inner, lowered: Scene::inner, taken: |ready| ready.first() };

impl Procedure {
    /// Ends when no unplaced block has the count 0.
    fn run(&self, scene: &Scene) -> Placement {
        let mut counts: Counts = scene.blocks.iter().map(|&block| (block, 0)).collect();
        for edge in (self.counted)(scene) {
            counts.entry(edge.target).and_modify(|count| *count += 1);
        }
        let (lowered, mut made) = ((self.lowered)(scene), Placement::default());
        loop {
            let ready = counts.iter().filter(|(_, &count)| count == 0).map(|(&block, _)| block);
            let Some(&block) = (self.taken)(&ready.collect::<Vec<_>>()) else { return made };
            made.choices.push(Choice { counts: counts.clone(), block });
            counts.remove(&block);
            for &edge in lowered.iter().filter(|edge| edge.source == block) {
                counts.entry(edge.target).and_modify(|count| *count -= 1);
                made.lowerings.push(edge);
            }
        }
    }
}

/// What a state may have that a procedure can go wrong at.
#[derive(Clone, Copy, Debug, PartialEq, Eq, PartialOrd, Ord)]
enum Trait {
    /// An ite with both edges to one block of the state, not its starter.
    Twins,
    /// An edge back to the state's own starter.
    Back,
    /// An unreachable block with an edge to a block of the state, not its starter.
    Unreachable,
    /// A choice among several ready blocks.
    Several,
    /// A block placed before one of a lower number.
    Falling,
}

const TRAITS: [Trait; 5] =
    [Trait::Twins, Trait::Back, Trait::Unreachable, Trait::Several, Trait::Falling];

impl Trait {
    fn is_in(self, scene: &Scene) -> bool {
        match self {
            Trait::Twins => {
                let pair = |x: &Edge, y: &Edge| (x.source, x.target) == (y.source, y.target);
                scene.inner().windows(2).any(|two| pair(&two[0], &two[1]))
            }
            Trait::Back => !scene.back().is_empty(),
            Trait::Unreachable => !scene.unreachable().is_empty(),
            Trait::Several => (0..scene.order.len()).any(|placed| {
                let counts = scene.counts(&scene.order[placed..].iter().copied().collect());
                counts.values().filter(|&&count| count == 0).count() > 1
            }),
            Trait::Falling => !scene.order.is_sorted(),
        }
    }
}

/// A wrong procedure, what it goes wrong at, the flaws that it then always has, and those that it
/// may have beside them.
struct Wrong {
    procedure: Procedure,
    at: Trait,
    always: &'static [Flaw],
    may: &'static [Flaw],
}

const TWO_LOWERED_ONCE: Wrong = Wrong {
    procedure: Procedure { lowered: Scene::without_twins, ..RIGHT },
    at: Trait::Twins,
    always: &[Flaw::Order, Flaw::Lowering],
    may: &[Flaw::Count],
};

const ONE_LOWERED_TWICE: Wrong = Wrong {
    procedure: Procedure { counted: Scene::without_twins, ..RIGHT },
    at: Trait::Twins,
    always: &[Flaw::Count, Flaw::BelowZero],
    may: &[Flaw::Order, Flaw::Lowering],
};

/// Its order is right: counts and lowerings alone show that it is wrong.
const TWO_TAKEN_AS_ONE: Wrong = Wrong {
    procedure: Procedure { counted: Scene::without_twins, lowered: Scene::without_twins, ..RIGHT },
    at: Trait::Twins,
    always: &[Flaw::Count, Flaw::Lowering],
    may: &[],
};

const STARTERS_COUNTED: Wrong = Wrong {
    procedure: Procedure { counted: |scene| [scene.inner(), scene.back()].concat(), ..RIGHT },
    at: Trait::Back,
    always: &[Flaw::Order],
    may: &[Flaw::Lowering],
};

const UNREACHABLE_COUNTED: Wrong = Wrong {
    procedure: Procedure {
        counted: |scene| [scene.inner(), scene.unreachable()].concat(),
        ..RIGHT
    },
    at: Trait::Unreachable,
    always: &[Flaw::Order, Flaw::Count],
    may: &[Flaw::Lowering],
};

const HIGHEST_TAKEN: Wrong = Wrong {
    procedure: Procedure { taken: |ready| ready.last(), ..RIGHT },
    at: Trait::Several,
    always: &[Flaw::Order],
    may: &[],
};

const WRONG: [Wrong; 6] = [
    TWO_LOWERED_ONCE, ONE_LOWERED_TWICE, TWO_TAKEN_AS_ONE, STARTERS_COUNTED, UNREACHABLE_COUNTED,
    HIGHEST_TAKEN,
];

/// The placement is without flaw, and the order has every block of the state once.
fn check_right(scene: &Scene, made: &Placement) {
    assert_eq!(flaws(scene, made), [], "{scene:?}");
    assert_eq!(*made, RIGHT.run(scene), "{scene:?}");
    let mut order = made.order();
    order.sort();
    assert!(order.into_iter().eq(scene.blocks.iter().copied()), "{scene:?}");
}

/// A wrong procedure has flaws exactly where its trait is.
fn check_wrong(scene: &Scene, wrong: &Wrong) {
    let found = flaws(scene, &wrong.procedure.run(scene));
    if wrong.at.is_in(scene) {
        let known = |flaw| wrong.always.contains(flaw) || wrong.may.contains(flaw);
        assert!(wrong.always.iter().all(|flaw| found.contains(flaw)), "{found:?} {scene:?}");
        assert!(found.iter().all(known), "{found:?} {scene:?}");
    } else {
        assert_eq!(found, [], "{scene:?}");
    }
}

/// How many states had each trait.
type Tally = BTreeMap<Trait, usize>;

fn check(graph: &Graph, tally: &mut Tally) {
    let grouping = group(graph);
    for state in 0..grouping.starters.len() {
        let scene = Scene::of(graph, &grouping, state);
        check_right(&scene, &by_counts(graph, &grouping, state));
        WRONG.iter().for_each(|wrong| check_wrong(&scene, wrong));
        for seen in TRAITS.into_iter().filter(|seen| seen.is_in(&scene)) {
            *tally.entry(seen).or_default() += 1;
        }
    }
}

/// Each trait was in so many states, so that each wrong procedure went wrong there.
fn saw_all(tally: &Tally, least: usize) {
    println!("states with each trait: {tally:?}");
    assert!(TRAITS.iter().all(|seen| tally.get(seen) >= Some(&least)), "{tally:?}");
}

/// Block 0 has two edges to block 3, and the order falls from there.
const TWINS: &str = "graph,4,1\nblock,0\nite,eq,0,0,3,3\nblock,1\nhalt\nblock,2\ngoto,1\n\
block,3\nite,eq,0,0,2,1\n";

#[test]
fn worked_examples() {
    let expected: [(&str, &[&[usize]]); 7] = [
        (P7, &[&[0], &[1, 2, 3, 4, 5]]),
        (P9, &[&[0, 2], &[1], &[3], &[4]]),
        (P10, &[&[0], &[1, 3], &[2]]),
        (P11, &[&[0]]),
        (P12, &[&[0, 1]]),
        (SEVEN, &[&[0], &[3, 4], &[1, 2], &[5, 6]]),
        (TWINS, &[&[0, 3, 2, 1]]),
    ];
    for (text, orders) in expected {
        let (graph, grouping) = (graph_of(text), group(&graph_of(text)));
        assert_eq!(grouping.starters.len(), orders.len());
        for (state, order) in orders.iter().enumerate() {
            assert_eq!(by_looking(&graph, &grouping, state), *order);
            assert_eq!(by_counts(&graph, &grouping, state).order(), *order);
        }
        check(&graph, &mut Tally::new());
    }
}

#[test]
fn step_by_step() {
    let graph = graph_of(TWINS);
    let made = by_counts(&graph, &group(&graph), 0);
    let choice =
        |counts: &[(usize, i64)], block| Choice { counts: counts.iter().copied().collect(), block };
    let choices = [
        choice(&[(0, 0), (1, 2), (2, 1), (3, 2)], 0),
        choice(&[(1, 2), (2, 1), (3, 0)], 3),
        choice(&[(1, 1), (2, 0)], 2),
        choice(&[(1, 0)], 1),
    ];
    assert_eq!(made.choices, choices);
    let edges = [(0, 0, 3), (0, 1, 3), (3, 0, 2), (3, 1, 1), (2, 0, 1)];
    assert_eq!(made.lowerings, edges.map(|(source, way, target)| Edge { source, way, target }));
}

/// The others get stuck, but one takes another order, and one the right order.
#[test]
fn wrong_procedures_on_examples() {
    let expected: [(Wrong, &str, usize, &[usize]); 6] = [
        (TWO_LOWERED_ONCE, TWINS, 0, &[0]),
        (ONE_LOWERED_TWICE, TWINS, 0, &[0]),
        (TWO_TAKEN_AS_ONE, TWINS, 0, &[0, 3, 2, 1]),
        (STARTERS_COUNTED, P11, 0, &[]),
        (UNREACHABLE_COUNTED, P12, 0, &[0]),
        (HIGHEST_TAKEN, P7, 1, &[1, 5, 2, 4, 3]),
    ];
    for (wrong, text, state, order) in expected {
        let graph = graph_of(text);
        let scene = Scene::of(&graph, &group(&graph), state);
        assert!(wrong.at.is_in(&scene));
        assert_eq!(wrong.procedure.run(&scene).order(), order);
        check_wrong(&scene, &wrong);
    }
}

#[test]
fn every_graph_of_at_most_four_blocks() {
    let mut tally = Tally::new();
    every_small_graph().for_each(|graph| check(&graph, &mut tally));
    saw_all(&tally, 1_000);
}

#[test]
fn random_graphs() {
    let (graphs, mut tally) = (many_graphs(51, 4_000), Tally::new());
    graphs.iter().for_each(|graph| check(graph, &mut tally));
    saw_all(&tally, 100);
    assert!(graphs.iter().any(|graph| graph.blocks.len() == MAX_BLOCKS));
}
