//! Every sum that a run works out, step by step: what the flag is made of.

use reference::case::Case;
use reference::graph::{Binary, Graph, Instruction};
use reference::graph_table;
use reference::machine::{Machine, Source, State, Wire};
use reference::machine_table;
use reference::run::{graph_step, machine_cycle};

/// An operator with two operands, and whether it counts.
#[derive(Clone, Copy, Debug)]
pub struct Event {
    pub op: Binary,
    pub x: u32,
    pub y: u32,
    /// What word c of the wire reads; 1 in a graph, where only blocks that are run are traced.
    pub arrival: u32,
    /// The same, if registers were read as the cycle leaves them.
    pub arrival_after: u32,
    /// Whether c names a wire.
    pub arrival_is_wire: bool,
    /// Whether the next state or a register after depends on it.
    pub used: bool,
}

impl Event {
    /// By the numbers of paper 02: the signed result is not in the 32-bit range.
    pub fn goes_over(&self) -> bool {
        let (x, y) = (i128::from(self.x as i32), i128::from(self.y as i32));
        match self.op {
            Binary::Add => i32::try_from(x + y).is_err(),
            Binary::Sub => i32::try_from(x - y).is_err(),
            _ => false,
        }
    }

    pub fn counts(&self) -> bool {
        self.goes_over() && self.arrival != 0
    }
}

/// The events of each block or cycle that was run, and how the run ended: 0 spent, 1 halted, 2 dry.
#[derive(Debug)]
pub struct Trace {
    pub steps: Vec<Vec<Event>>,
    pub outcome: u32,
    pub of_machine: bool,
}

/// The words of a run, or None for a run without words.
pub type Words<'a> = Option<&'a [u32]>;

/// Whether there is a word for an arrival, and which.
pub fn sampled(words: Words, arrival: usize) -> Option<u32> {
    words.map_or(Some(0), |list| list.get(arrival).copied())
}

fn block_events(graph: &Graph, block: usize, registers: &[u32], word: u32) -> Vec<Event> {
    let (mut registers, mut events) = (registers.to_vec(), Vec::new());
    for &instruction in &graph.blocks[block].instructions {
        if let Instruction::Binary { op, a, b, .. } = instruction {
            let (x, y) = (registers[a], registers[b]);
            let (arrival, arrival_after, arrival_is_wire) = (1, 1, true);
            events.push(Event { op, x, y, arrival, arrival_after, arrival_is_wire, used: true });
        }
        registers[instruction.target()] = instruction.value(&registers, word);
    }
    events
}

fn of_graph(graph: &Graph, case: &Case, words: Words) -> Trace {
    let mut registers = case.registers[..graph.registers].to_vec();
    let (mut at, mut arrival, mut steps) = (case.start_block as usize, 0, Vec::new());
    let ended = |steps, outcome| Trace { steps, outcome, of_machine: false };
    while steps.len() < case.block_budget as usize {
        let Some(word) = sampled(words, arrival) else {
            return ended(steps, 2);
        };
        steps.push(block_events(graph, at, &registers, word));
        let Some(next) = graph_step(graph, at, &mut registers, word).next else {
            return ended(steps, 1);
        };
        at = next;
        arrival += usize::from(case.starters.contains(&(at as u32)));
    }
    ended(steps, 0)
}

fn operands(wire: Wire) -> Vec<Source> {
    match wire {
        Wire::Set(_) | Wire::In => Vec::new(),
        Wire::Copy(a) | Wire::SignExtend(a) => vec![a],
        Wire::Binary(_, a, b) | Wire::Sum(_, a, b, _) => vec![a, b],
        Wire::Compare(_, a, b) | Wire::AndNot(a, b) => vec![a, b],
        Wire::Choose(a, b, c) => vec![a, b, c],
    }
}

/// The wires that the next references are reached from.
fn used_wires(state: &State) -> Vec<bool> {
    let mut used = vec![false; state.wires.len()];
    let mark = |used: &mut Vec<bool>, source: Source| {
        if let Source::Wire(wire) = source {
            used[wire] = true;
        }
    };
    mark(&mut used, state.next_state);
    state.next_registers.iter().for_each(|&source| mark(&mut used, source));
    for wire in (0..state.wires.len()).rev() {
        if used[wire] {
            operands(state.wires[wire]).into_iter().for_each(|source| mark(&mut used, source));
        }
    }
    used
}

fn cycle_events(state: &State, used: &[bool], registers: &[u32], word: u32) -> Vec<Event> {
    let mut wires: Vec<u32> = Vec::new();
    for wire in &state.wires {
        wires.push(wire.value(registers, word, &wires));
    }
    let after: Vec<u32> =
        state.next_registers.iter().map(|source| source.read(registers, &wires)).collect();
    let event = |(wire, &used): (&Wire, &bool)| {
        let (op, a, b, c) = match *wire {
            Wire::Sum(op, a, b, c) => (op, a, b, c),
            // A word that is not read: the operator counts wherever it is worked out.
            Wire::Binary(op, a, b) => (op, a, b, a),
            _ => return None,
        };
        let read = |source: Source| source.read(registers, &wires);
        let (x, y, arrival, arrival_after) = (read(a), read(b), read(c), c.read(&after, &wires));
        let arrival_is_wire = matches!(c, Source::Wire(_));
        Some(Event { op, x, y, arrival, arrival_after, arrival_is_wire, used })
    };
    state.wires.iter().zip(used).filter_map(event).collect()
}

fn of_machine(machine: &Machine, case: &Case, words: Words) -> Trace {
    let used: Vec<Vec<bool>> = machine.states.iter().map(used_wires).collect();
    let mut registers = case.registers[..machine.registers].to_vec();
    let (mut at, mut steps) = (case.start_state as usize, Vec::new());
    let ended = |steps, outcome| Trace { steps, outcome, of_machine: true };
    while steps.len() < case.cycle_budget as usize {
        let Some(word) = sampled(words, steps.len()) else {
            return ended(steps, 2);
        };
        steps.push(cycle_events(&machine.states[at], &used[at], &registers, word));
        let Some(next) = machine_cycle(machine, at, &mut registers, word).next else {
            return ended(steps, 1);
        };
        at = next;
    }
    ended(steps, 0)
}

/// The trace of a run that was not refused.
pub fn graph_trace(graph: &[u32], case: &Case, words: Words) -> Trace {
    of_graph(&graph_table::decode(graph).expect("not refused"), case, words)
}

pub fn machine_trace(machine: &[u32], case: &Case, words: Words) -> Trace {
    of_machine(&machine_table::decode(machine).expect("not refused"), case, words)
}
