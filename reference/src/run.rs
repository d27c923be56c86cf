//! Runs of a graph and of a machine within a budget, on a supply of words.

use crate::block_set::BlockSet;
use crate::graph::{Ending, Graph};
use crate::machine::Machine;
use std::iter;

pub const NONE: u32 = 255;

#[derive(Clone, Copy, Debug, PartialEq, Eq)]
pub enum Outcome {
    Spent = 0,
    Halted = 1,
    Dry = 2,
}

#[derive(Clone, Copy, Debug, PartialEq, Eq)]
pub struct Run {
    pub outcome: Outcome,
    pub count: u32,
    pub next: u32,
    /// Raised by a step that raised it, and clear before the first.
    pub flag: bool,
    /// Blocks run in all steps.
    pub blocks: u64,
}

/// What one block, or one cycle, came to.
#[derive(Clone, Copy, Debug, PartialEq, Eq)]
pub struct Step {
    /// The block or state moved to, or None at a halt.
    pub next: Option<usize>,
    /// Whether an add or sub went over in a block that was run.
    pub over: bool,
    /// How many blocks were run: one in a graph, in a machine those that are arrived at.
    pub blocks: u64,
}

/// Runs one block on the word of the last arrival.
pub fn graph_step(graph: &Graph, block: usize, registers: &mut [u32], word: u32) -> Step {
    let block = &graph.blocks[block];
    let mut over = false;
    for &instruction in &block.instructions {
        over |= instruction.goes_over(registers);
        registers[instruction.target()] = instruction.value(registers, word);
    }
    let next = match block.ending {
        Ending::Goto(t) => Some(t),
        Ending::Ite { comparison, a, b, t, f } => {
            Some(if comparison.holds(registers[a], registers[b]) { t } else { f })
        }
        Ending::Halt => None,
    };
    Step { next, over, blocks: 1 }
}

/// Runs one cycle on the word sampled at its start.
pub fn machine_cycle(machine: &Machine, state: usize, registers: &mut [u32], word: u32) -> Step {
    let state = &machine.states[state];
    let mut wires = Vec::with_capacity(state.wires.len());
    let mut over = false;
    for wire in &state.wires {
        over |= wire.raises(registers, &wires);
        let value = wire.value(registers, word, &wires);
        wires.push(value);
    }
    let read = |source: crate::machine::Source| source.read(registers, &wires);
    let next = read(state.next_state) as usize;
    let after: Vec<u32> = state.next_registers.iter().map(|&source| read(source)).collect();
    registers[..after.len()].copy_from_slice(&after);
    let next = (next < machine.states.len()).then_some(next);
    Step { next, over, blocks: state.blocks_run(&wires) }
}

/// A word for every arrival, for runs of what reads none.
pub fn unread_words() -> impl Iterator<Item = u32> {
    iter::repeat(0)
}

/// Repeats a step until it halts, the budget is used or an arrival finds no word. The start is an
/// arrival, and so is each move to a place that the test names.
fn repeat(
    start: usize,
    budget: u32,
    mut words: impl Iterator<Item = u32>,
    is_arrival: impl Fn(usize) -> bool,
    mut step: impl FnMut(usize, u32) -> Step,
) -> Run {
    let (mut at, mut flag, mut blocks) = (start, false, 0);
    let mut sampled = words.next();
    for count in 0..budget {
        let Some(word) = sampled else {
            return Run { outcome: Outcome::Dry, count, next: at as u32, flag, blocks };
        };
        let done = step(at, word);
        flag |= done.over;
        blocks += done.blocks;
        let Some(next) = done.next else {
            return Run { outcome: Outcome::Halted, count: count + 1, next: NONE, flag, blocks };
        };
        at = next;
        if is_arrival(at) {
            sampled = words.next();
        }
    }
    Run { outcome: Outcome::Spent, count: budget, next: at as u32, flag, blocks }
}

pub fn run_graph(
    graph: &Graph,
    registers: &mut [u32],
    start: usize,
    budget: u32,
    words: impl Iterator<Item = u32>,
    starters: BlockSet,
) -> Run {
    let step = |block, word| graph_step(graph, block, registers, word);
    repeat(start, budget, words, |block| starters.contains(block), step)
}

/// Each cycle's start is an arrival.
pub fn run_machine(
    machine: &Machine,
    registers: &mut [u32],
    start: usize,
    budget: u32,
    words: impl Iterator<Item = u32>,
) -> Run {
    let cycle = |state, word| machine_cycle(machine, state, registers, word);
    repeat(start, budget, words, |_| true, cycle)
}
