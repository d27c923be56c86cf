//! The state machine as types: states, wires, references.

use crate::graph::{sign_extend, Binary, Comparison};
use std::collections::BTreeMap;

pub const MAX_STATES: usize = 64;
pub const MAX_WIRES: usize = 3_072;

/// Where a word comes from within a cycle.
#[derive(Clone, Copy, Debug, PartialEq, Eq)]
pub enum Source {
    Register(usize),
    Wire(usize),
}

#[derive(Clone, Copy, Debug, PartialEq, Eq)]
pub enum Wire {
    Set(u32),
    /// The word sampled at the start of the cycle.
    In,
    Copy(Source),
    SignExtend(Source),
    Binary(Binary, Source, Source),
    /// Add or sub of the first two. Where it goes over, it counts if the third, which is its
    /// block's arrival, is nonzero.
    Sum(Binary, Source, Source, Source),
    Compare(Comparison, Source, Source),
    AndNot(Source, Source),
    /// The second where the first is nonzero, else the third.
    Choose(Source, Source, Source),
}

#[derive(Clone, Debug, PartialEq, Eq)]
pub struct State {
    pub first: usize,
    pub wires: Vec<Wire>,
    pub next_state: Source,
    pub next_registers: Vec<Source>,
    /// The wire of each block's arrival, by the blocks of the state.
    pub arrivals: BTreeMap<usize, usize>,
}

#[derive(Clone, Debug, PartialEq, Eq)]
pub struct Machine {
    pub registers: usize,
    pub states: Vec<State>,
}

impl State {
    /// Whether a cycle may change a register: its next reference is anything but itself. A register
    /// that the machine does not have is never touched.
    pub fn touches(&self, register: usize) -> bool {
        let next = self.next_registers.get(register);
        next.is_some_and(|&next| next != Source::Register(register))
    }

    /// How many of its blocks are arrived at in a cycle, given the words of its wires. Blocks that
    /// share a wire are counted each by itself.
    pub fn blocks_run(&self, wires: &[u32]) -> u64 {
        self.arrivals.values().filter(|&&wire| wires[wire] != 0).count() as u64
    }
}

impl Machine {
    /// The lowest-numbered state that touches a register.
    pub fn first_touching(&self, register: usize) -> Option<usize> {
        self.states.iter().position(|state| state.touches(register))
    }

    pub fn wire_count(&self) -> usize {
        self.states.iter().map(|state| state.wires.len()).sum()
    }

    /// Whether any state has a wire of code 20.
    pub fn reads_words(&self) -> bool {
        self.states.iter().any(|state| state.wires.contains(&Wire::In))
    }
}

impl Source {
    pub fn read(self, registers: &[u32], wires: &[u32]) -> u32 {
        match self {
            Source::Register(index) => registers[index],
            Source::Wire(index) => wires[index],
        }
    }
}

impl Wire {
    /// The wire's word, from the cycle's first registers, its sampled word and earlier wires.
    pub fn value(self, registers: &[u32], word: u32, wires: &[u32]) -> u32 {
        let read = |source: Source| source.read(registers, wires);
        match self {
            Wire::Set(literal) => literal,
            Wire::In => word,
            Wire::Copy(a) => read(a),
            Wire::SignExtend(a) => sign_extend(read(a)),
            Wire::Binary(op, a, b) | Wire::Sum(op, a, b, _) => op.apply(read(a), read(b)),
            Wire::Compare(comparison, a, b) => u32::from(comparison.holds(read(a), read(b))),
            Wire::AndNot(a, b) => read(a) & !read(b),
            Wire::Choose(a, b, _) if read(a) != 0 => read(b),
            Wire::Choose(_, _, c) => read(c),
        }
    }

    /// Whether it raises the flag: it goes over, and its arrival is nonzero.
    pub fn raises(self, registers: &[u32], wires: &[u32]) -> bool {
        let read = |source: Source| source.read(registers, wires);
        match self {
            Wire::Sum(op, a, b, arrival) => op.goes_over(read(a), read(b)) && read(arrival) != 0,
            _ => false,
        }
    }
}
