//! The wires of one state.

use crate::grouping::Grouping;
use crate::{block, BLOCKS, ENDING, NONE, REGISTERS};

/// The target of an edge that is used up, and of a halt.
const USED: u8 = 254;
const HALT: u8 = NONE;
/// Two edges a block.
const EDGES: usize = 2 * BLOCKS;

/// The edges out of placed blocks: target, taken reference, values.
pub struct Edges {
    count: usize,
    targets: [u8; EDGES],
    taken: [u32; EDGES],
    values: [[u32; REGISTERS]; EDGES],
}

impl Edges {
    pub fn none() -> Edges {
        Edges {
            count: 0,
            targets: [USED; EDGES],
            taken: [0; EDGES],
            values: [[0; REGISTERS]; EDGES],
        }
    }

    fn add(&mut self, target: u8, taken: u32, values: &[u32; REGISTERS]) {
        self.targets[self.count] = target;
        self.taken[self.count] = taken;
        self.values[self.count] = *values;
        self.count += 1;
    }
}

/// A state in the making.
pub struct State<'a> {
    /// Room for its wires, and how many it has.
    pub wires: &'a mut [u32],
    pub count: usize,
    pub registers: usize,
    pub values: [u32; REGISTERS],
    pub edges: &'a mut Edges,
}

impl<'a> State<'a> {
    pub fn new(wires: &'a mut [u32], registers: usize, edges: &'a mut Edges) -> State<'a> {
        edges.count = 0;
        State { wires, count: 0, registers, values: [0; REGISTERS], edges }
    }

    /// One more wire; its reference.
    #[inline]
    fn wire(&mut self, words: [u32; 4]) -> u32 {
        self.wires[4 * self.count..][..4].copy_from_slice(&words);
        self.count += 1;
        (REGISTERS + self.count - 1) as u32
    }

    /// Each register's value is that of edge `i` where it is taken, else the one so far.
    fn select(&mut self, i: usize) {
        for register in 0..self.registers {
            let (taken, value) = (self.edges.taken[i], self.edges.values[i][register]);
            self.values[register] = self.wire([19, taken, value, self.values[register]]);
        }
    }

    fn start(&mut self) -> u32 {
        for register in 0..self.registers {
            self.values[register] = register as u32;
        }
        self.wire([1, 1, 0, 0])
    }

    /// The joined edges to block `x`, which are used up; the reference of its arrival.
    fn join(&mut self, x: u8) -> u32 {
        let mut arrival = None;
        for i in 0..self.edges.count {
            if self.edges.targets[i] != x {
                continue;
            }
            self.edges.targets[i] = USED;
            let taken = self.edges.taken[i];
            arrival = Some(match arrival {
                None => {
                    self.values = self.edges.values[i];
                    taken
                }
                Some(so_far) => {
                    let joined = self.wire([6, so_far, taken, 0]);
                    self.select(i);
                    joined
                }
            });
        }
        arrival.unwrap_or(0)
    }

    /// A sum also names its block's arrival.
    fn instruction(&mut self, words: &[u32], arrival: u32) {
        let value = |register: u32| self.values[register as usize];
        let (code, a, b) = (words[0], words[2], words[3]);
        let wire = match code {
            1 => [1, a, 0, 0],
            2 | 11 => [code, value(a), 0, 0],
            20 => [20, 0, 0, 0],
            3 | 4 => [code, value(a), value(b), arrival],
            _ => [code, value(a), value(b), 0],
        };
        self.values[words[1] as usize] = self.wire(wire);
    }

    fn ending(&mut self, words: &[u32], arrival: u32) {
        let (target, other) = (words[4] as u8, words[5] as u8);
        let values = self.values;
        match words[0] {
            1 => self.edges.add(target, arrival, &values),
            2 => {
                let (a, b) = (values[words[2] as usize], values[words[3] as usize]);
                let compared = self.wire([words[1], a, b, 0]);
                let holds = self.wire([5, arrival, compared, 0]);
                let fails = self.wire([18, arrival, compared, 0]);
                self.edges.add(target, holds, &values);
                self.edges.add(other, fails, &values);
            }
            _ => self.edges.add(HALT, arrival, &values),
        }
    }

    /// The reference of its arrival.
    pub fn place(&mut self, graph: &[u32], x: u8, is_starter: bool) -> u32 {
        let arrival = if is_starter { self.start() } else { self.join(x) };
        let block = block(graph, x as usize);
        let code = block[1..ENDING].chunks_exact(4).take(block[0] as usize);
        code.for_each(|words| self.instruction(words, arrival));
        self.ending(&block[ENDING..], arrival);
        arrival
    }

    /// The exits; the reference of the next state. What edges are left lead to starters, or halt.
    pub fn leave(&mut self, grouping: &Grouping) -> u32 {
        let mut next = None;
        for i in 0..self.edges.count {
            let state = match self.edges.targets[i] {
                USED => continue,
                HALT => u32::from(HALT),
                target => u32::from(grouping.states[target as usize]),
            };
            let set = self.wire([1, state, 0, 0]);
            next = Some(match next {
                None => {
                    self.values = self.edges.values[i];
                    set
                }
                Some(so_far) => {
                    let selected = self.wire([19, self.edges.taken[i], set, so_far]);
                    self.select(i);
                    selected
                }
            });
        }
        next.unwrap_or(0)
    }
}
