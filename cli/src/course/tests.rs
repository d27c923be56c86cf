//! Tests of runs side by side, against the second program's interpreters.

mod against;
mod setup;

use super::{Course, Cycle, Side, SLICE};
use crate::arguments::Setup;
use crate::numbers::Words;
use gutkavu::{Graph, Outcome};
use std::panic::{self, AssertUnwindSafe};

const GCD: &str = include_str!("../../../examples/gcd.txt");
const TURN: &str = include_str!("../../../examples/turn.txt");
const P11: &str = include_str!("../../../examples/p11.txt");

fn graph(text: &str) -> Graph {
    text.parse().expect("a graph")
}

fn setup(registers: &[u32], words: Option<&[u32]>, start: u32, budget: u32) -> Setup {
    Setup {
        registers: Words(registers.to_vec()),
        words: words.map(|words| Words(words.to_vec())),
        words_file: None,
        start,
        budget,
    }
}

fn course<'a>(graph: &'a Graph, setup: &Setup) -> Course<'a> {
    Course::new("a graph", graph, setup).expect("a course")
}

/// Runs a course to its end in slices of a size.
fn finish(course: &mut Course, slice: u32) {
    while course.advance(slice) > 0 {}
    assert_eq!(course.advance(slice), 0, "it stays as it is");
}

#[test]
fn gcd_in_slices() {
    let graph = graph(GCD);
    for slice in [1, 2, 3, 4, 5, SLICE] {
        let mut course = course(&graph, &setup(&[12, 18], None, 0, 100));
        finish(&mut course, slice);
        assert_eq!((course.outcome(), course.cycles()), (Some(Outcome::Halted), 4));
        let side = course.by_machine();
        assert_eq!((side.registers[0], side.registers[1]), (6, 6));
        assert_eq!((side.blocks, side.next, side.flag), (9, None, false));
        assert_eq!(course.by_graph(), side);
    }
}

#[test]
fn a_slice_is_not_exceeded() {
    let graph = graph(P11);
    let mut course = course(&graph, &setup(&[], None, 0, u32::MAX));
    assert_eq!(course.most_cycles(), u32::MAX);
    for (most, cycles) in [(0, 0), (1, 1), (7, 7), (SLICE, SLICE), (u32::MAX, SLICE)] {
        assert_eq!(course.advance(most), cycles);
        assert_eq!(course.outcome(), None);
    }
    assert_eq!(course.cycles(), 2 * SLICE + 8);
    assert_eq!(course.by_graph().blocks, u64::from(2 * SLICE + 8));
}

#[test]
fn budgets_at_the_ends_of_slices() {
    let graph = graph(P11);
    for budget in [0, 1, SLICE - 1, SLICE, SLICE + 1, 2 * SLICE] {
        let mut course = course(&graph, &setup(&[], None, 0, budget));
        finish(&mut course, SLICE);
        assert_eq!((course.outcome(), course.cycles()), (Some(Outcome::Spent), budget));
        assert_eq!((course.by_graph().next, course.by_machine().next), (Some(0), Some(0)));
        assert_eq!(course.cycle(), None);
    }
}

/// Words that last for the budget leave it spent, fewer dry; spent comes before dry.
#[test]
fn words_and_budgets() {
    let graph = graph(TURN);
    for (words, budget, outcome, cycles) in [
        (0, 0, Outcome::Spent, 0),
        (0, 1, Outcome::Dry, 0),
        (1, 1, Outcome::Spent, 1),
        (1, 2, Outcome::Dry, 1),
        (SLICE, SLICE, Outcome::Spent, SLICE),
        (SLICE, SLICE + 1, Outcome::Dry, SLICE),
        (SLICE + 1, SLICE + 1, Outcome::Spent, SLICE + 1),
        (SLICE + 1, SLICE, Outcome::Spent, SLICE),
    ] {
        let given: Vec<u32> = (0..words).collect();
        let mut course = course(&graph, &setup(&[], Some(&given), 0, budget));
        assert_eq!(course.most_cycles(), words.min(budget));
        assert_eq!(course.words(), Some(&given[..]));
        finish(&mut course, SLICE);
        assert_eq!((course.outcome(), course.cycles()), (Some(outcome), cycles));
    }
}

#[test]
fn blocks_of_each_cycle_of_a_turn() {
    let graph = graph(TURN);
    let words = [10, 65_346, 410, 10, 65_146, 160];
    let limits = [0, 0, 0, -300i32 as u32, 300];
    let mut course = course(&graph, &setup(&limits, Some(&words), 0, 1_000));
    let cycles: Vec<Cycle> = std::iter::from_fn(|| course.cycle()).collect();
    let blocks: Vec<&[u32]> = cycles.iter().map(|cycle| &cycle.blocks[..]).collect();
    let ways: [&[u32]; 6] = [
        &[0],
        &[1, 2, 3, 5, 6],
        &[1, 3, 4, 5, 6, 7],
        &[1, 3, 5, 6],
        &[1, 2, 3, 5, 7],
        &[1, 3, 5, 6],
    ];
    assert_eq!(blocks, ways);
    let given: Vec<Option<u32>> = cycles.iter().map(|cycle| cycle.word).collect();
    assert_eq!(given, words.map(Some));
    assert_eq!((course.outcome(), course.by_graph().blocks), (Some(Outcome::Dry), 25));
}

type Change = fn(&mut Side);

/// Runs one cycle of gcd, the graph's side changed before; gives what the defect is called.
fn defect(change: Change, by_block: bool) -> String {
    let graph = graph(GCD);
    let mut course = course(&graph, &setup(&[12, 18], None, 1, 9));
    change(&mut course.by_graph);
    let found = panic::catch_unwind(AssertUnwindSafe(|| match by_block {
        true => course.cycle().map_or(0, |cycle| cycle.number),
        false => course.advance(1),
    }));
    *found.expect_err("a defect").downcast::<String>().expect("a message")
}

/// A side that differs from the other never passes for an answer.
#[test]
fn differences_are_found() {
    let changes: [(Change, &str); 5] = [
        (|side| side.flag = true, "graph and machine differ"),
        (|side| side.blocks += 1, "graph and machine differ"),
        (|side| side.registers[0] = 11, "graph and machine differ"),
        (|side| side.registers[15] = 1, "graph and machine differ"),
        // It halts, and the machine does not.
        (|side| side.registers[0] = 18, "graph and machine stand apart"),
    ];
    for (change, message) in changes {
        for by_block in [false, true] {
            let found = defect(change, by_block);
            assert!(found.contains(message), "{found}");
        }
    }
}
