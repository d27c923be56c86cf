//! From a grouped graph to the wires of each state.

use crate::graph::{Binary, Ending, Graph, Instruction};
use crate::grouping::{group, Grouping};
use crate::machine::{Machine, Source, State, Wire};
use crate::placement::by_looking;
use std::collections::BTreeMap;

/// A way out of a placed block: when it is taken, and the registers then.
#[derive(Clone)]
struct Edge {
    source: usize,
    /// None for a halt.
    target: Option<usize>,
    taken: Source,
    values: Vec<Source>,
}

/// The wires of one state so far, and the edges by place, true first.
struct Builder<'a> {
    graph: &'a Graph,
    grouping: &'a Grouping,
    wires: Vec<Wire>,
    edges: Vec<Edge>,
    /// The wire of each placed block's arrival.
    arrivals: BTreeMap<usize, usize>,
}

impl Builder<'_> {
    fn add(&mut self, wire: Wire) -> Source {
        self.wires.push(wire);
        Source::Wire(self.wires.len() - 1)
    }

    /// Chooses the edge's registers where it is taken, else those so far.
    fn merge_values(&mut self, edge: &Edge, so_far: &mut [Source]) {
        for (value, &arriving) in so_far.iter_mut().zip(&edge.values) {
            *value = self.add(Wire::Choose(edge.taken, arriving, *value));
        }
    }

    /// When a block is arrived at, and the registers it begins with.
    fn arrive(&mut self, block: usize) -> (Source, Vec<Source>) {
        let entering = |edge: &&Edge| edge.target == Some(block);
        let incoming: Vec<Edge> = self.edges.iter().filter(entering).cloned().collect();
        if self.grouping.starters.contains(&block) {
            let arrival = self.add(Wire::Set(1));
            return (arrival, (0..self.graph.registers).map(Source::Register).collect());
        }
        let (mut arrival, mut values) = (incoming[0].taken, incoming[0].values.clone());
        for edge in &incoming[1..] {
            arrival = self.add(Wire::Binary(Binary::Or, arrival, edge.taken));
            self.merge_values(edge, &mut values);
        }
        (arrival, values)
    }

    /// One wire; a sum also names its block's arrival.
    fn instruct(&mut self, instruction: Instruction, arrival: Source, values: &mut [Source]) {
        let wire = match instruction {
            Instruction::Set { literal, .. } => Wire::Set(literal as u32),
            Instruction::In { .. } => Wire::In,
            Instruction::Copy { a, .. } => Wire::Copy(values[a]),
            Instruction::SignExtend { a, .. } => Wire::SignExtend(values[a]),
            Instruction::Binary { op, a, b, .. } if op.is_sum() => {
                Wire::Sum(op, values[a], values[b], arrival)
            }
            Instruction::Binary { op, a, b, .. } => Wire::Binary(op, values[a], values[b]),
        };
        values[instruction.target()] = self.add(wire);
    }

    /// A block is arrived at by a wire: the starter's own, or one of an ite or a join before it.
    fn note(&mut self, block: usize, arrival: Source) {
        if let Source::Wire(wire) = arrival {
            self.arrivals.insert(block, wire);
        }
    }

    fn place(&mut self, block: usize) {
        let (arrival, mut values) = self.arrive(block);
        self.note(block, arrival);
        let graph = self.graph;
        for &instruction in &graph.blocks[block].instructions {
            self.instruct(instruction, arrival, &mut values);
        }
        let ways = match graph.blocks[block].ending {
            Ending::Goto(t) => vec![(Some(t), arrival)],
            Ending::Halt => vec![(None, arrival)],
            Ending::Ite { comparison, a, b, t, f } => {
                let condition = self.add(Wire::Compare(comparison, values[a], values[b]));
                let yes = self.add(Wire::Binary(Binary::And, arrival, condition));
                let no = self.add(Wire::AndNot(arrival, condition));
                vec![(Some(t), yes), (Some(f), no)]
            }
        };
        for (target, taken) in ways {
            self.edges.push(Edge { source: block, target, taken, values: values.clone() });
        }
    }

    /// Whether an edge leaves the cycle, and then the next state's number.
    fn exit(&self, edge: &Edge) -> Option<u32> {
        match edge.target {
            None => Some(255),
            Some(target) => self.grouping.state_started_by(target).map(|state| state as u32),
        }
    }

    fn close(mut self, first: usize) -> State {
        let exits: Vec<(u32, Edge)> = (self.edges.iter())
            .filter_map(|edge| self.exit(edge).map(|next| (next, edge.clone())))
            .collect();
        let mut next_state = self.add(Wire::Set(exits[0].0));
        let mut next_registers = exits[0].1.values.clone();
        for (number, edge) in &exits[1..] {
            let number = self.add(Wire::Set(*number));
            next_state = self.add(Wire::Choose(edge.taken, number, next_state));
            self.merge_values(edge, &mut next_registers);
        }
        let Builder { wires, arrivals, .. } = self;
        State { first, wires, next_state, next_registers, arrivals }
    }
}

fn build_state(graph: &Graph, grouping: &Grouping, state: usize, first: usize) -> State {
    let (wires, edges, arrivals) = (Vec::new(), Vec::new(), BTreeMap::new());
    let mut builder = Builder { graph, grouping, wires, edges, arrivals };
    for block in by_looking(graph, grouping, state) {
        builder.place(block);
    }
    debug_assert!(builder.edges.iter().all(|edge| grouping.state_of[&edge.source] == state));
    builder.close(first)
}

pub fn synthesise(graph: &Graph) -> (Grouping, Machine) {
    let grouping = group(graph);
    let mut states: Vec<State> = Vec::new();
    let mut first = 0;
    for state in 0..grouping.starters.len() {
        let built = build_state(graph, &grouping, state, first);
        first += built.wires.len();
        states.push(built);
    }
    (grouping, Machine { registers: graph.registers, states })
}
