//! The order of placed blocks is the second program's, on the examples and on random graphs.

use super::place;
use crate::samples;
use gutkavu::Graph;
use reference::grouping::{group, Grouping};
use reference::placement::{by_counts, by_looking};

/// The orders of all states.
fn orders(graph: &Graph) -> Vec<Vec<u32>> {
    let machine = graph.synthesise();
    let order = |state| place(graph, &machine, state).iter().map(|one| one.number).collect();
    (0..machine.states()).map(order).collect()
}

fn as_second_program(graph: &Graph) {
    let text = graph.write();
    let parsed = reference::parse::parse(text.as_bytes()).expect("a graph");
    let grouping: Grouping = group(&parsed);
    let orders = orders(graph);
    assert_eq!(orders.len(), grouping.starters.len());
    for (state, order) in orders.iter().enumerate() {
        let order: Vec<usize> = order.iter().map(|&block| block as usize).collect();
        assert_eq!(order, by_looking(&parsed, &grouping, state), "state {state} of\n{text}");
        assert_eq!(order, by_counts(&parsed, &grouping, state).order());
        assert_eq!(order.first(), grouping.starters.get(state));
    }
}

#[test]
fn orders_are_those_of_the_second_program() {
    samples::examples().iter().for_each(as_second_program);
    samples::random(500).iter().for_each(as_second_program);
}

/// Block 3 leads to block 1, so it is placed before; block 2, which neither is awaited nor awaits,
/// goes before both. Block 4 is unreachable: that it leads to block 1 counts for nothing.
#[test]
fn an_order_that_is_not_rising() {
    let text = "graph,5,2\nblock,0\nite,lt,0,1,2,3\nblock,1\nhalt\nblock,2\nhalt\n\
        block,3\ngoto,1\nblock,4\ngoto,1\n";
    assert_eq!(orders(&text.parse().expect("a graph")), [[0, 2, 3, 1]]);
}

#[test]
fn the_starter_goes_first() {
    // State 1 has starter 2, and block 1 with a lower number.
    let text = "graph,3,1\nblock,0\ngoto,2\nblock,1\ngoto,2\nblock,2\ngoto,1\n";
    assert_eq!(orders(&text.parse().expect("a graph")), [vec![0], vec![2, 1]]);
}
