//! One cycle, with the blocks that it runs.

use super::Course;

/// A cycle that was run.
#[derive(Clone, Debug, PartialEq, Eq)]
pub struct Cycle {
    /// Counted from 1.
    pub number: u32,
    pub state: u32,
    /// None in a run without words.
    pub word: Option<u32>,
    /// In the order in which they ran; the starter of the state is the first.
    pub blocks: Vec<u32>,
    pub before: [u32; 16],
    pub after: [u32; 16],
    /// Whether it was raised in this cycle or before.
    pub flag: bool,
    /// The next state; none where the cycle halts.
    pub next: Option<u32>,
}

impl Course<'_> {
    /// Runs one cycle: the machine at once, the graph block by block. None where the course has
    /// ended.
    pub fn cycle(&mut self) -> Option<Cycle> {
        let state = self.by_machine.next?;
        let left = self.budget - self.cycles;
        let word = *self.words.after(self.cycles, left.min(1)).first()?;
        let before = self.by_machine.registers;
        self.cycles += self.by_machine.run_cycles(&self.machine, &[word]);
        let blocks = self.blocks_to_arrival(word);
        self.compare();
        Some(Cycle {
            number: self.cycles,
            state,
            word: self.words.given().map(|_| word),
            blocks,
            before,
            after: self.by_machine.registers,
            flag: self.by_machine.flag,
            next: self.by_machine.next,
        })
    }

    /// Runs the graph block by block, until it halts or arrives at a starter.
    fn blocks_to_arrival(&mut self, word: u32) -> Vec<u32> {
        let all: Vec<u32> = (0..self.graph.blocks()).collect();
        let mut blocks = Vec::new();
        loop {
            blocks.push(self.by_graph.run_block(self.graph, &all, word));
            match self.by_graph.next {
                Some(next) if !self.machine.starters().contains(&next) => {}
                _ => return blocks,
            }
        }
    }
}
