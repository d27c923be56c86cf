//! Cases with several faults at once, so that every two refusals of a call meet.

use super::machine_damage::{self, Table};
use super::{block_words, faulty_lines, graph_damage, graphs, lists, words, SHORT_MACHINES};
use crate::answer::{buffers_of, patch};
use crate::case::{Case, Patch, MAX_PATCHES, MAX_STARTERS};
use crate::graph::Graph;
use crate::graph_table::{self, ENDING_OFFSET};
use crate::grouping::group;
use crate::machine_table::{self, BLOCK_STATES_AT, MACHINE_WORDS, RECORDS_AT};
use crate::parse::parse;
use crate::print::print;
use crate::random::Random;

/// What is to be wrong with a run's table, its start and its list.
#[derive(Clone, Copy, Default)]
struct Wishes {
    short: bool,
    refused: bool,
    reads_words: bool,
    start: bool,
    starters: bool,
}

/// Two of the first so many kinds, sometimes three; where the registers are short too, one or two.
fn wishes(random: &mut Random, kinds: usize, short_registers: bool) -> Wishes {
    let mut wishes = Wishes::default();
    for _ in 0..2 + usize::from(random.percent(25)) - usize::from(short_registers) {
        match random.below(kinds) {
            0 => wishes.short = true,
            1 => wishes.refused = true,
            2 => wishes.reads_words = true,
            3 => wishes.start = true,
            _ => wishes.starters = true,
        }
    }
    wishes
}

/// A graph that holds `in`, or one that does not, if a few tries make one.
fn graph(random: &mut Random, reads_words: bool) -> Graph {
    let mut graph = graphs::small_graph(random);
    for _ in 0..8 {
        if graph.reads_words() == reads_words {
            break;
        }
        graph = graphs::small_graph(random);
    }
    graph
}

/// The first words of a graph table, for a buffer that reading left as it was. What stands behind
/// them is no table, so they are refused all the same, or they end where the buffer does.
fn graph_start(random: &mut Random, wishes: Wishes) -> Vec<Patch> {
    let code = if wishes.reads_words { 20 } else { random.between(1, 11) as u32 };
    let registers = random.pick(&[1, 2, 16, if wishes.refused { 17 } else { 3 }]);
    let head = [random.between(1, 3) as u32, registers, 1, code];
    let mut patches: Vec<Patch> = (0..).zip(head).collect();
    patches.extend((4..42).map(|index| (index, 0)));
    // The block halts.
    patches[2 + ENDING_OFFSET].1 = 3;
    patches
}

/// Patches that make a table refused; most kinds do, so a few tries are enough.
fn refused_graph(random: &mut Random, table: &[u32]) -> Vec<Patch> {
    let mut patches = Vec::new();
    for _ in 0..8 {
        patches = graph_damage::patches(random, table);
        let mut damaged = table.to_vec();
        patch(&mut damaged, &patches);
        if graph_table::decode(&damaged).is_none() {
            break;
        }
    }
    patches
}

fn spoil_graph(random: &mut Random, wishes: Wishes, case: &mut Case) {
    if wishes.short {
        case.graph_length = random.pick(&[2_561, 2_561, 2_560, 100, 42, 2, 1, 0]);
    }
    let (table, _) = buffers_of(case);
    case.graph_patches = match graph_table::decode(&table) {
        Some(_) if wishes.refused => refused_graph(random, &table),
        Some(_) => Vec::new(),
        None if wishes.reads_words || random.percent(50) => graph_start(random, wishes),
        None => Vec::new(),
    };
}

/// Zeros, but that all blocks are absent.
fn without_blocks() -> Vec<u32> {
    let mut table = vec![0; MACHINE_WORDS];
    table[BLOCK_STATES_AT..RECORDS_AT].fill(block_words::ABSENT as u32);
    table
}

/// A small machine in place of what synthesis made or left, with an `in` or without.
fn small_machine(random: &mut Random, reads_words: bool) -> Vec<Patch> {
    let mut patches = Vec::new();
    for _ in 0..12 {
        patches = machine_damage::bare_machine(random);
        let mut table = without_blocks();
        patch(&mut table, &patches);
        if reads_words {
            patches.truncate(MAX_PATCHES - 4);
            patches.extend(machine_damage::input_wire(random, &Table { words: &table }));
            patch(&mut table, &patches);
        }
        let machine = machine_table::decode(&table);
        if machine.is_some_and(|machine| machine.reads_words() == reads_words) {
            break;
        }
    }
    patches
}

fn spoil_machine(random: &mut Random, wishes: Wishes, case: &mut Case) {
    if wishes.short {
        case.machine_length = random.pick(&SHORT_MACHINES);
    }
    let (_, table) = buffers_of(case);
    let made = machine_table::decode(&table);
    case.machine_patches = match &made {
        Some(machine) if machine.reads_words() == wishes.reads_words && random.percent(60) => {
            Vec::new()
        }
        Some(_) if wishes.reads_words && random.percent(60) => {
            machine_damage::input_wire(random, &Table { words: &table })
        }
        Some(_) => block_words::mended(&table, small_machine(random, wishes.reads_words)),
        None => small_machine(random, wishes.reads_words),
    };
    if wishes.refused {
        let (_, mut words) = buffers_of(case);
        words.resize(MACHINE_WORDS, 1);
        case.machine_patches.truncate(MAX_PATCHES - 20);
        case.machine_patches.extend(machine_damage::refused(random, &Table { words: &words }));
    }
}

/// A start at or past the limit that the first word of a buffer gives, or the entry.
fn start(random: &mut Random, past: bool, buffer: &[u32]) -> u32 {
    let limit = buffer.first().copied().unwrap_or(1);
    match past {
        true => random.pick(&[limit, limit, limit.saturating_add(1), limit.max(255), u32::MAX]),
        false => 0,
    }
}

fn starters(random: &mut Random, faulty: bool, case: &Case) -> Vec<u32> {
    let graph = parse(&case.text).ok();
    let blocks = graph.as_ref().map_or(1, |graph| graph.blocks.len());
    let own = graph.map_or(vec![0], |graph| group(&graph).starters);
    let own: Vec<u32> = own.iter().map(|&block| block as u32).collect();
    let mut list = match faulty {
        true => lists::faulty(random, &own, blocks, case.start_block),
        false => [&own[..], &[case.start_block]].concat(),
    };
    list.truncate(MAX_STARTERS);
    list
}

/// Texts with several faults and a right one; with a faulty text there is no graph to run.
fn text(random: &mut Random, reads_words: bool) -> Vec<u8> {
    match random.percent(42) {
        true => faulty_lines::text(random),
        false => print(&graph(random, reads_words)).into_bytes(),
    }
}

pub fn case(random: &mut Random) -> Case {
    let short_registers = random.percent(25);
    let of_graph = wishes(random, 5, short_registers);
    let of_machine = wishes(random, 4, short_registers);
    let mut case = Case::plain(&text(random, of_graph.reads_words));
    if random.percent(40) {
        let short = case.text.len().saturating_sub(1).min(16_384) as u32;
        case.output_length = random.pick(&[0, 0, 1, 22, short]);
    }
    let length = if short_registers { random.pick(&[15, 15, 15, 8, 1, 0]) } else { 16 };
    case.registers = words::registers(random, length);
    spoil_graph(random, of_graph, &mut case);
    spoil_machine(random, of_machine, &mut case);
    let (graph, machine) = buffers_of(&case);
    case.start_block = start(random, of_graph.start, &graph);
    case.start_state = start(random, of_machine.start, &machine);
    case.starters = starters(random, of_graph.starters, &case);
    let length = random.between(0, 4);
    case.words = words::registers(random, length);
    (case.block_budget, case.cycle_budget) = (random.pick(&[0, 1, 7, 50]), random.pick(&[0, 1, 7]));
    case
}
