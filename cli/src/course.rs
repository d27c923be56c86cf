//! A graph and its machine, run side by side by the library.

mod cycle;
mod setup;
mod side;
mod supply;
#[cfg(test)]
mod tests;
mod words_file;

pub use cycle::Cycle;
pub use side::Side;

use gutkavu::{Graph, Machine, Outcome};
use supply::Supply;

/// The cycles of one slice, at most. With two thousand wires in a state a slice takes some tenths
/// of a second, so that Ctrl-C is soon heeded.
pub const SLICE: u32 = 16_384;

/// A run of both. Each has its own registers, place, flag and count of blocks; after each slice or
/// cycle they are compared.
#[derive(Debug)]
pub struct Course<'a> {
    graph: &'a Graph,
    machine: Machine,
    words: Supply,
    budget: u32,
    cycles: u32,
    by_graph: Side,
    by_machine: Side,
}

impl Course<'_> {
    /// Runs up to so many cycles, in one call of the library for each of the two. Gives how many
    /// it ran: none where the course has ended.
    pub fn advance(&mut self, most: u32) -> u32 {
        let words = self.words.after(self.cycles, most.min(SLICE).min(self.budget - self.cycles));
        if words.is_empty() || self.by_machine.next.is_none() {
            return 0;
        }
        let cycles = self.by_machine.run_cycles(&self.machine, words);
        self.by_graph.run_arrivals(self.graph, self.machine.starters(), words);
        self.cycles += cycles;
        self.compare();
        cycles
    }

    /// That the two agree is proved; a difference would be a defect of this program or of what it
    /// is linked with.
    fn compare(&self) {
        let Course { machine, cycles, by_graph, by_machine, .. } = self;
        let starter = by_machine.next.and_then(|state| machine.starter(state));
        assert_eq!(by_graph.next, starter, "graph and machine stand apart after cycle {cycles}");
        let rest = |side: &Side| (side.registers, side.flag, side.blocks);
        assert_eq!(rest(by_graph), rest(by_machine), "graph and machine differ, cycle {cycles}");
    }

    /// How the run has ended; none where it has not.
    pub fn outcome(&self) -> Option<Outcome> {
        let left = self.budget - self.cycles;
        if self.by_machine.next.is_none() {
            return Some(Outcome::Halted);
        }
        if !self.words.after(self.cycles, left.min(1)).is_empty() {
            return None;
        }
        // Both are asked whether a run that gets no word is spent or dry.
        let by_machine = self.by_machine.outcome_of_machine(&self.machine, left);
        let by_graph = self.by_graph.outcome_of_graph(self.graph, self.machine.starters(), left);
        assert_eq!(by_graph, by_machine, "graph and machine end in different ways");
        Some(by_machine)
    }

    /// The outcome in words, also where the run has not ended.
    pub fn ending(&self) -> &'static str {
        match self.outcome() {
            Some(Outcome::Spent) => "spent",
            Some(Outcome::Halted) => "halted",
            Some(Outcome::Dry) => "dry",
            None => "broken off",
        }
    }

    /// The cycles run so far.
    pub fn cycles(&self) -> u32 {
        self.cycles
    }

    /// How many cycles there can be.
    pub fn most_cycles(&self) -> u32 {
        self.words.count().map_or(self.budget, |count| self.budget.min(count))
    }

    /// The words that were given; none in a run without words.
    pub fn words(&self) -> Option<&[u32]> {
        self.words.given()
    }

    pub fn graph(&self) -> &Graph {
        self.graph
    }

    pub fn machine(&self) -> &Machine {
        &self.machine
    }

    /// What the graph has come to.
    pub fn by_graph(&self) -> &Side {
        &self.by_graph
    }

    /// What the machine has come to.
    pub fn by_machine(&self) -> &Side {
        &self.by_machine
    }
}
