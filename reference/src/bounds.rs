//! What one cycle can make of registers that are known within bounds.
//!
//! Every rule takes whole ranges of signed numbers and gives one; sums are worked out in 64 bits and
//! compared with the ends of a word.

use crate::graph::{signed, Binary, Comparison};
use crate::machine::{Source, State, Wire};

/// The signed numbers from the lowest to the highest, both included.
#[derive(Clone, Copy, Debug, PartialEq, Eq)]
pub struct Range {
    pub lowest: i64,
    pub highest: i64,
}

/// All signed numbers of so many bits.
const fn signed_bits(bits: u32) -> Range {
    Range { lowest: -(1 << (bits - 1)), highest: (1 << (bits - 1)) - 1 }
}

/// Every word.
pub const FULL: Range = signed_bits(32);
const HALF: Range = signed_bits(16);
const TRUTH: Range = Range { lowest: 0, highest: 1 };

impl Range {
    pub fn of_words(lowest: u32, highest: u32) -> Range {
        Range { lowest: signed(lowest), highest: signed(highest) }
    }

    /// The two ends as words.
    pub fn words(self) -> (u32, u32) {
        let word = |end: i64| (end & 0xFFFF_FFFF) as u32;
        (word(self.lowest), word(self.highest))
    }

    pub fn single(value: i64) -> Range {
        Range { lowest: value, highest: value }
    }

    pub fn is_single(self) -> bool {
        self.lowest == self.highest
    }

    /// Whether it has a number at all.
    pub fn is_some(self) -> bool {
        self.lowest <= self.highest
    }

    pub fn contains(self, value: i64) -> bool {
        self.lowest <= value && value <= self.highest
    }

    fn within(self, other: Range) -> bool {
        other.contains(self.lowest) && other.contains(self.highest)
    }

    fn meets(self, other: Range) -> bool {
        self.lowest <= other.highest && other.lowest <= self.highest
    }

    /// The smallest range that holds both.
    fn joined(self, other: Range) -> Range {
        Range { lowest: self.lowest.min(other.lowest), highest: self.highest.max(other.highest) }
    }
}

fn sum(op: Binary, a: Range, b: Range) -> Range {
    let ends = match op {
        Binary::Sub => Range { lowest: a.lowest - b.highest, highest: a.highest - b.lowest },
        _ => Range { lowest: a.lowest + b.lowest, highest: a.highest + b.highest },
    };
    if ends.within(FULL) {
        ends
    } else {
        FULL
    }
}

fn sign_extended(a: Range) -> Range {
    if a.within(HALF) {
        a
    } else {
        HALF
    }
}

/// Whether a is below b, where the ends decide it.
fn below(a: Range, b: Range) -> Option<bool> {
    if a.highest < b.lowest {
        Some(true)
    } else if a.lowest >= b.highest {
        Some(false)
    } else {
        None
    }
}

/// Whether a comparison holds, where the ends decide it.
fn decided(comparison: Comparison, a: Range, b: Range) -> Option<bool> {
    let apart = !a.meets(b);
    match comparison {
        Comparison::Eq => apart.then_some(false),
        Comparison::Ne => apart.then_some(true),
        Comparison::Lt => below(a, b),
        Comparison::Ge => below(a, b).map(|below| !below),
        Comparison::Ltu | Comparison::Geu => None,
    }
}

fn compared(comparison: Comparison, a: Range, b: Range) -> Range {
    decided(comparison, a, b).map_or(TRUTH, |holds| Range::single(holds.into()))
}

fn chosen(condition: Range, taken: Range, else_taken: Range) -> Range {
    if !condition.contains(0) {
        taken
    } else if condition.is_single() {
        else_taken
    } else {
        taken.joined(else_taken)
    }
}

/// What a wire reads of registers and of earlier wires; a sum's arrival is no input.
fn inputs(wire: Wire) -> Vec<Source> {
    match wire {
        Wire::Set(_) | Wire::In => Vec::new(),
        Wire::Copy(a) | Wire::SignExtend(a) => vec![a],
        Wire::Sum(_, a, b, _)
        | Wire::Binary(_, a, b)
        | Wire::Compare(_, a, b)
        | Wire::AndNot(a, b) => vec![a, b],
        Wire::Choose(a, b, c) => vec![a, b, c],
    }
}

/// The ranges of a cycle so far, and beside them their lowest ends as words: these are what a wire
/// reads where its inputs are single.
struct Cycle {
    registers: Vec<Range>,
    wires: Vec<Range>,
    register_words: Vec<u32>,
    wire_words: Vec<u32>,
}

impl Cycle {
    fn from(registers: &[Range]) -> Cycle {
        Cycle {
            registers: registers.to_vec(),
            wires: Vec::new(),
            register_words: registers.iter().map(|range| range.words().0).collect(),
            wire_words: Vec::new(),
        }
    }

    fn at(&self, source: Source) -> Range {
        match source {
            Source::Register(index) => self.registers[index],
            Source::Wire(index) => self.wires[index],
        }
    }

    /// By the rules for inputs of which not all are single.
    fn by_rule(&self, wire: Wire) -> Range {
        let at = |source: Source| self.at(source);
        match wire {
            Wire::Set(literal) => Range::single(signed(literal)),
            Wire::Copy(a) => at(a),
            Wire::Choose(a, b, c) => chosen(at(a), at(b), at(c)),
            Wire::Sum(op, a, b, _) => sum(op, at(a), at(b)),
            Wire::SignExtend(a) => sign_extended(at(a)),
            Wire::Compare(comparison, a, b) => compared(comparison, at(a), at(b)),
            Wire::Binary(..) | Wire::AndNot(..) | Wire::In => FULL,
        }
    }

    fn add(&mut self, wire: Wire) {
        let exact = wire.value(&self.register_words, 0, &self.wire_words);
        let single = inputs(wire).iter().all(|&source| self.at(source).is_single());
        let range = match single && wire != Wire::In {
            true => Range::single(signed(exact)),
            false => self.by_rule(wire),
        };
        self.wires.push(range);
        self.wire_words.push(range.words().0);
    }
}

/// The range of each next register below R, from those of the registers at the start.
pub fn next_ranges(state: &State, registers: &[Range]) -> Vec<Range> {
    let mut cycle = Cycle::from(registers);
    state.wires.iter().for_each(|&wire| cycle.add(wire));
    state.next_registers.iter().map(|&source| cycle.at(source)).collect()
}
