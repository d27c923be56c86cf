//! Graphs, tables and starts from a seed: all shapes, and shifts by amounts at their ends.

use super::test_bench::{Start, MOST};
use reference::answer;
use reference::case::Patch;
use reference::generate::graphs::{self, Size};
use reference::generate::machine_damage::Table;
use reference::generate::{block_damage, machine_damage, words};
use reference::graph::{Binary, Graph, Instruction, MAX_BLOCKS, MAX_INSTRUCTIONS, MAX_REGISTERS};
use reference::grouping::Tour;
use reference::machine_table::{decode, AND_NOT, CHOOSE, WIRES_AT, WIRE_WORDS};
use reference::random::Random;

const ENDS: [u32; 18] = [
    0, 1, 2, 16, 30, 31, 32, 32, 33, 63, 64, 65, 256, 65_536, 2_147_483_647, 2_147_483_648,
    4_294_967_264, 4_294_967_295,
];

/// The amount of a shift: at an end, or any.
pub fn amount(random: &mut Random) -> u32 {
    match random.percent(85) {
        true => random.pick(&ENDS),
        false => random.word(),
    }
}

/// A shift whose amount is a register, a literal or the word read.
fn shift(random: &mut Random, registers: usize) -> Vec<Instruction> {
    // Not the registers that hold the constants of a graph that counts down.
    let most = if registers > 2 { registers - 2 } else { registers };
    let [d, a, b] = [(); 3].map(|()| random.below(most));
    let op = random.pick(&[Binary::Shl, Binary::Shr, Binary::Sar]);
    let shift = Instruction::Binary { op, d, a, b };
    match random.below(8) {
        0..=3 => vec![Instruction::Set { d: b, literal: amount(random) as i32 }, shift],
        4 => vec![Instruction::In { d: b }, shift],
        _ => vec![shift],
    }
}

/// Puts shifts into some blocks, in place of other instructions where there is no room.
fn with_shifts(random: &mut Random, mut graph: Graph) -> Graph {
    for block in &mut graph.blocks {
        if random.percent(40) {
            let (fresh, count) = (shift(random, graph.registers), block.instructions.len());
            let replaced = (count + fresh.len()).saturating_sub(MAX_INSTRUCTIONS);
            let at = random.below(count - replaced + 1);
            block.instructions.splice(at..at + replaced, fresh);
        }
    }
    graph
}

/// More blocks, registers and instructions than most others have: the one of four that reaches the
/// most blocks.
fn large_graph(random: &mut Random) -> Graph {
    let size = Size {
        blocks: random.between(20, MAX_BLOCKS),
        registers: random.between(1, MAX_REGISTERS),
        instructions: random.between(1, MAX_INSTRUCTIONS),
    };
    let mut drawn = [(); 4].map(|()| graphs::graph_of(random, size));
    drawn.sort_by_key(|graph| Tour::of(graph).reachable().len());
    let [.., graph] = drawn;
    match random.percent(40) {
        true => graphs::with_inputs(random, graph),
        false => graph,
    }
}

pub fn graph(random: &mut Random) -> Graph {
    let graph = match random.below(20) {
        0..=8 => graphs::graph(random),
        9..=12 => large_graph(random),
        13..=15 => graphs::small_graph(random),
        _ => graphs::sum_graph(random),
    };
    match random.percent(75) {
        true => with_shifts(random, graph),
        false => graph,
    }
}

/// Where a wire reads what is 0 or 1 in a table that synthesis made: an arrival.
fn arrival_at(code: u32) -> Option<usize> {
    match code {
        AND_NOT | CHOOSE => Some(1),
        _ if Binary::from_code(code).is_some_and(Binary::is_sum) => Some(3),
        _ => None,
    }
}

/// Other references in place of some arrivals.
fn other_arrivals(random: &mut Random, table: &[u32]) -> Vec<Patch> {
    let mut patches = Vec::new();
    let machine = decode(table);
    for state in machine.iter().flat_map(|machine| &machine.states) {
        for wire in 0..state.wires.len() {
            let at = WIRES_AT + (state.first + wire) * WIRE_WORDS;
            let (register, earlier) = (random.below(table[1] as usize), random.below(wire));
            let reference = random.pick(&[register, register, 16 + earlier]);
            let place = arrival_at(table[at]).filter(|_| random.percent(30));
            patches.extend(place.map(|place| ((at + place) as u32, reference as u32)));
        }
    }
    patches
}

/// Patches of almost half of the tables, which leave them admitted: synthesis alone would never
/// choose by a word above 1, halt by another word than 255, nor run a cycle without a block.
pub fn patches(random: &mut Random, table: &[u32]) -> Vec<Patch> {
    let patches = match random.below(10) {
        0..=3 => machine_damage::patches(random, table),
        4 => other_arrivals(random, table),
        5 | 6 => block_damage::right(random, &Table { words: table }),
        _ => Vec::new(),
    };
    let mut patched = table.to_vec();
    answer::patch(&mut patched, &patches);
    match decode(&patched).is_some() && patched != table {
        true => patches,
        false => Vec::new(),
    }
}

type Draw = fn(&mut Random) -> u32;

/// Kinds of register contents: zeros, ends of the signed range, mixed words, shift amounts, any.
pub const CONTENTS: [Draw; 5] = [|_| 0, words::near_end, words::word, amount, Random::word];

fn start(random: &mut Random, state: u32, contents: Draw) -> Start {
    let registers = std::array::from_fn(|_| contents(random));
    let draw = random.pick(&CONTENTS[1..]);
    let given = if random.percent(70) { MOST } else { random.below(MOST) };
    let words = (0..given).map(|_| draw(random)).collect();
    let budget = if random.percent(85) { MOST } else { random.below(MOST) };
    Start { state, registers, words, budget: budget as u32 }
}

/// Each kind of contents from state 0, and from another state where there is one.
pub fn starts(random: &mut Random, states: usize) -> Vec<Start> {
    let mut starts = Vec::new();
    for contents in CONTENTS {
        starts.push(start(random, 0, contents));
        if states > 1 {
            let other = random.between(1, states - 1) as u32;
            starts.push(start(random, other, contents));
        }
    }
    starts
}
