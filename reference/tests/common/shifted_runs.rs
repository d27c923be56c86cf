//! Runs of graphs and machines whose shifts are given.

use super::shifts::is_shift;
use super::traces::{sampled, Words};
use reference::case::Case;
use reference::graph::{Binary, Ending, Graph, Instruction};
use reference::machine::{Machine, Source, Wire};
use reference::run::Step;

/// What a shift gives.
pub type Shift<'a> = &'a dyn Fn(Binary, u32, u32) -> u32;

/// How a run ended, and the register buffer after.
#[derive(Clone, Debug, PartialEq, Eq)]
pub struct Ended {
    pub outcome: u32,
    pub count: u32,
    pub next: u32,
    pub flag: bool,
    pub registers: Vec<u32>,
}

/// No run of a stored case is longer.
const MOST_STEPS: u32 = 20_000;

fn block_step(graph: &Graph, at: usize, registers: &mut [u32], word: u32, shift: Shift) -> Step {
    let mut over = false;
    for &instruction in &graph.blocks[at].instructions {
        over |= instruction.goes_over(registers);
        registers[instruction.target()] = match instruction {
            Instruction::Binary { op, a, b, .. } if is_shift(op) => {
                shift(op, registers[a], registers[b])
            }
            _ => instruction.value(registers, word),
        };
    }
    let next = match graph.blocks[at].ending {
        Ending::Goto(t) => Some(t),
        Ending::Ite { comparison, a, b, t, .. } if comparison.holds(registers[a], registers[b]) => {
            Some(t)
        }
        Ending::Ite { f, .. } => Some(f),
        Ending::Halt => None,
    };
    Step { next, over, blocks: 1 }
}

fn cycle(machine: &Machine, at: usize, registers: &mut [u32], word: u32, shift: Shift) -> Step {
    let (state, mut wires, mut over) = (&machine.states[at], Vec::new(), false);
    for &wire in &state.wires {
        over |= wire.raises(registers, &wires);
        wires.push(match wire {
            Wire::Binary(op, a, b) if is_shift(op) => {
                shift(op, a.read(registers, &wires), b.read(registers, &wires))
            }
            _ => wire.value(registers, word, &wires),
        });
    }
    let read = |source: &Source| source.read(registers, &wires);
    let next = read(&state.next_state) as usize;
    let after: Vec<u32> = state.next_registers.iter().map(read).collect();
    registers[..after.len()].copy_from_slice(&after);
    let next = (next < machine.states.len()).then_some(next);
    Step { next, over, blocks: state.blocks_run(&wires) }
}

/// Steps until a halt, the end of the budget or of the words; None where that takes too long.
fn run(
    case: &Case,
    [start, budget]: [u32; 2],
    words: Words,
    is_arrival: impl Fn(usize) -> bool,
    step: impl Fn(usize, &mut [u32], u32) -> Step,
) -> Option<Ended> {
    let (mut at, mut arrival, mut flag) = (start as usize, 0, false);
    let mut registers = case.registers.clone();
    for count in 0..budget.min(MOST_STEPS) {
        let Some(word) = sampled(words, arrival) else {
            return Some(Ended { outcome: 2, count, next: at as u32, flag, registers });
        };
        let Step { next, over, .. } = step(at, &mut registers, word);
        flag |= over;
        let Some(next) = next else {
            return Some(Ended { outcome: 1, count: count + 1, next: 255, flag, registers });
        };
        at = next;
        arrival += usize::from(is_arrival(at));
    }
    let ended = Ended { outcome: 0, count: budget, next: at as u32, flag, registers };
    (budget <= MOST_STEPS).then_some(ended)
}

pub fn graph_run(graph: &Graph, case: &Case, words: Words, shift: Shift) -> Option<Ended> {
    let is_arrival = |block: usize| case.starters.contains(&(block as u32));
    let step = |at, registers: &mut [u32], word| block_step(graph, at, registers, word, shift);
    run(case, [case.start_block, case.block_budget], words, is_arrival, step)
}

pub fn machine_run(machine: &Machine, case: &Case, words: Words, shift: Shift) -> Option<Ended> {
    let step = |at, registers: &mut [u32], word| cycle(machine, at, registers, word, shift);
    run(case, [case.start_state, case.cycle_budget], words, |_| true, step)
}
