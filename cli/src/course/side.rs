//! One of the two that run side by side.

use gutkavu::layout::MOST_BLOCKS;
use gutkavu::{Graph, Machine, Outcome};

/// What the graph, or the machine, has come to.
#[derive(Clone, Debug, PartialEq, Eq)]
pub struct Side {
    pub registers: [u32; 16],
    /// The block or state that it stands in; none where it has halted.
    pub next: Option<u32>,
    pub flag: bool,
    /// Blocks run so far.
    pub blocks: u64,
}

const STANDS: &str = "a side that has not halted";
const NOT_REFUSED: &str = "a start that was judged, on a table that the library made";

impl Side {
    pub fn new(registers: [u32; 16], start: u32) -> Side {
        Side { registers, next: Some(start), flag: false, blocks: 0 }
    }

    /// Runs the machine, a cycle for each word. Gives the number of cycles.
    pub fn run_cycles(&mut self, machine: &Machine, words: &[u32]) -> u32 {
        let (state, budget) = (self.next.expect(STANDS), words.len() as u32);
        let run = machine.run_with_words(&mut self.registers, state, budget, words);
        let run = run.expect(NOT_REFUSED);
        self.reach(run.next, run.flag, run.blocks);
        run.count
    }

    /// Runs the graph up to the arrival that has no word, or to a halt.
    pub fn run_arrivals(&mut self, graph: &Graph, starters: &[u32], words: &[u32]) {
        // A cycle passes no block twice. With one more than there can be, it is never spent.
        let budget = (MOST_BLOCKS * words.len() + 1) as u32;
        let start = self.next.expect(STANDS);
        let run = graph.run_with_words(&mut self.registers, start, budget, words, starters);
        let run = run.expect(NOT_REFUSED);
        assert_ne!(run.outcome, Outcome::Spent, "a cycle passes no block twice");
        self.reach(run.next, run.flag, u64::from(run.count));
    }

    /// Runs one block of the graph, which is given. All blocks count as starters here, because
    /// block by block a run begins at each.
    pub fn run_block(&mut self, graph: &Graph, all: &[u32], word: u32) -> u32 {
        let block = self.next.expect(STANDS);
        let run = graph.run_with_words(&mut self.registers, block, 1, &[word], all);
        let run = run.expect(NOT_REFUSED);
        self.reach(run.next, run.flag, u64::from(run.count));
        block
    }

    fn reach(&mut self, next: Option<u32>, flag: bool, blocks: u64) {
        self.next = next;
        self.flag |= flag;
        self.blocks += blocks;
    }

    /// How a run of the machine from here on ends that gets no word.
    pub fn outcome_of_machine(&self, machine: &Machine, budget: u32) -> Outcome {
        let (mut registers, state) = (self.registers, self.next.expect(STANDS));
        let run = machine.run_with_words(&mut registers, state, budget, &[]);
        run.expect(NOT_REFUSED).outcome
    }

    /// How a run of the graph from here on ends that gets no word.
    pub fn outcome_of_graph(&self, graph: &Graph, starters: &[u32], budget: u32) -> Outcome {
        let (mut registers, block) = (self.registers, self.next.expect(STANDS));
        let run = graph.run_with_words(&mut registers, block, budget, &[], starters);
        run.expect(NOT_REFUSED).outcome
    }
}
