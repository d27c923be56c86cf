//! What a case's runs get: starts, budgets, words and starters.

use super::lists;
use crate::answer::buffers_of;
use crate::block_set::BlockSet;
use crate::case::Case;
use crate::graph::Graph;
use crate::graph_table::{self, GRAPH_WORDS};
use crate::grouping::group;
use crate::machine::Machine;
use crate::machine_table::{self, MACHINE_WORDS};
use crate::random::Random;
use crate::run::{self, Outcome, Run};

/// Most blocks of a graph run, and most wires worked out in a machine run.
const MOST_BLOCKS: u32 = 20_000;
const MOST_WIRES: u32 = 100_000;

/// A start: mostly the entry, else any below the limit or just past it; the latter often where
/// the case is about starts.
fn start(random: &mut Random, about_starts: bool, limit: usize) -> u32 {
    let limit = limit as u32;
    let chance = if about_starts { 75 } else { 25 };
    if !random.percent(chance) {
        return 0;
    }
    let inside = random.below(limit as usize) as u32;
    match random.percent(if about_starts { 40 } else { 8 }) {
        true => random.pick(&[limit, limit, limit + 1, 64, 255, 256, 2_147_483_648, u32::MAX]),
        false => random.pick(&[inside, inside, limit - 1, 0]),
    }
}

/// A budget, given the count at which the run ends by itself when it does so soon.
fn budget(random: &mut Random, ends_at: Option<u32>, most: u32) -> u32 {
    let small = random.between(2, 60) as u32;
    match ends_at {
        // A huge budget only here: a run that goes on would not come to its end.
        Some(_) if random.percent(12) => random.pick(&[u32::MAX, u32::MAX, u32::MAX - 1]),
        Some(count) => random.pick(&[count, count, count - 1, count + 1, small, 0, 1, 1_000]),
        None => match random.below(20) {
            0 => most.min(3_000),
            1 => most.min(255),
            2 => most.min(256),
            3 | 4 => 0,
            5 | 6 => 1,
            _ => most.min(small),
        },
    }
}

/// The count at which a run ended before its budget was spent.
fn ended(run: Run) -> Option<u32> {
    (run.outcome != Outcome::Spent).then_some(run.count)
}

/// The case's graph run with words, within a budget, and how many of the words it sampled.
fn graph_on_words(graph: &Graph, case: &Case, budget: u32) -> (Run, usize) {
    let registers = &mut case.registers.clone();
    let blocks = case.starters.iter().map(|&block| block as usize);
    let starters: BlockSet = blocks.filter(|&block| block < graph.blocks.len()).collect();
    let mut sampled = 0;
    let words = case.words.iter().copied().inspect(|_| sampled += 1);
    let run = run::run_graph(graph, registers, case.start_block as usize, budget, words, starters);
    (run, sampled)
}

fn machine_on_words(machine: &Machine, case: &Case, budget: u32) -> Run {
    let (registers, start) = (&mut case.registers.clone(), case.start_state as usize);
    run::run_machine(machine, registers, start, budget, case.words.iter().copied())
}

/// Without `in` both runs of the graph are answered, and the one without words lasts longer.
fn graph_budget(random: &mut Random, graph: &Graph, case: &Case) -> u32 {
    let most = if random.percent(3) { MOST_BLOCKS } else { 2_000 };
    let run = match graph.reads_words() {
        true => graph_on_words(graph, case, most).0,
        false => {
            let (registers, start) = (&mut case.registers.clone(), case.start_block as usize);
            let starters = BlockSet::default();
            run::run_graph(graph, registers, start, most, run::unread_words(), starters)
        }
    };
    budget(random, ended(run), most)
}

fn machine_budget(random: &mut Random, machine: &Machine, case: &Case) -> u32 {
    let widest = machine.states.iter().map(|state| state.wires.len()).max().unwrap_or(0);
    let most = (MOST_WIRES / (widest as u32 + 1)).clamp(50, 3_000);
    let run = match machine.reads_words() {
        true => machine_on_words(machine, case, most),
        false => {
            let (registers, start) = (&mut case.registers.clone(), case.start_state as usize);
            run::run_machine(machine, registers, start, most, run::unread_words())
        }
    };
    budget(random, ended(run), most)
}

/// How many words keep the graph's run from going dry: those sampled before its last block.
fn words_of_graph(graph: &Graph, case: &Case) -> usize {
    let (run, sampled) = graph_on_words(graph, case, case.block_budget);
    match (run.outcome, run.count) {
        (Outcome::Dry, _) => sampled,
        (_, 0) => 0,
        (_, count) => graph_on_words(graph, case, count - 1).1,
    }
}

fn words_of_machine(machine: &Machine, case: &Case) -> usize {
    machine_on_words(machine, case, case.cycle_budget).count as usize
}

/// The graph and the machine of a case, where their tables are admitted.
struct Found {
    graph: Option<Graph>,
    machine: Option<Machine>,
}

impl Found {
    fn of(case: &Case) -> Found {
        let (graph, machine) = buffers_of(case);
        Found {
            graph: graph.get(..GRAPH_WORDS).and_then(graph_table::decode),
            machine: machine.get(..MACHINE_WORDS).and_then(machine_table::decode),
        }
    }

    /// Only tables that the case's runs are not refused 7 or 9 on.
    fn started(self, case: &Case) -> Found {
        let (block, state) = (case.start_block as usize, case.start_state as usize);
        let enough = case.registers.len() >= 16;
        Found {
            graph: self.graph.filter(|graph| enough && block < graph.blocks.len()),
            machine: self.machine.filter(|machine| enough && state < machine.states.len()),
        }
    }
}

/// The machine that the case's runs of a machine are run on, where they are not refused 7, 10 or 9.
pub fn started_machine(case: &Case) -> Option<Machine> {
    Found::of(case).started(case).machine
}

/// Of the words that the case has, it keeps as many as its runs need, or more, or fewer.
pub fn choose(random: &mut Random, about_starts: bool, case: &mut Case) {
    let found = Found::of(case);
    let own = found.graph.as_ref().map_or(vec![0], |graph| group(graph).starters);
    let blocks = found.graph.as_ref().map_or(2, |graph| graph.blocks.len());
    let states = found.machine.as_ref().map_or(2, |machine| machine.states.len());
    case.start_block = start(random, about_starts, blocks);
    case.start_state = start(random, about_starts, states);
    if random.percent(45) {
        // A starter and its state, where the two runs are to agree; the entry's more seldom.
        let state = random.below(own.len()).max(random.below(own.len()));
        (case.start_block, case.start_state) = (own[state] as u32, state as u32);
    }
    case.starters = lists::starters(random, &own, blocks, case.start_block);
    let Found { graph, machine } = found.started(case);
    let mut needed = Vec::new();
    case.block_budget = random.pick(&[0, 1, 7, 50]);
    if let Some(graph) = graph {
        case.block_budget = graph_budget(random, &graph, case);
        needed.push(words_of_graph(&graph, case));
    }
    case.cycle_budget = random.pick(&[0, 1, 7, 50]);
    if let Some(machine) = machine {
        case.cycle_budget = machine_budget(random, &machine, case);
        needed.push(words_of_machine(&machine, case));
    }
    let needed = if needed.is_empty() { 1 } else { random.pick(&needed) };
    case.words.truncate(lists::length(random, needed));
}
