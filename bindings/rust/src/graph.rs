//! A graph, held as its table.

use crate::{layout, operations};
use crate::{Block, Machine, ReadRefusal, Refusal, Run, RunWithWords};
use crate::{GRAPH_WORDS, MACHINE_WORDS, TEXT_BYTES};
use std::fmt;
use std::str::FromStr;

/// A control-flow graph. Its table is one that reading makes, so writing and synthesis are never
/// refused.
#[derive(Clone, PartialEq, Eq, Hash)]
pub struct Graph {
    words: Box<[u32; GRAPH_WORDS]>,
}

impl Graph {
    /// Reads a graph's text. Refusals 1 to 5.
    pub fn read(text: &[u8]) -> Result<Graph, ReadRefusal> {
        let mut words = Box::new([0; GRAPH_WORDS]);
        let fields = operations::read(text, &mut words[..]);
        match Refusal::answer(fields.number) {
            Ok(()) => Ok(Graph { words }),
            Err(refusal) => Err(ReadRefusal::new(refusal, fields.line)),
        }
    }

    /// The graph that a table holds; words past the table are not taken. Refusals 7, 6.
    pub fn from_words(words: &[u32]) -> Result<Graph, Refusal> {
        // Every graph has block 0, so a run of no blocks refuses the table or nothing.
        let fields = operations::run_graph_with_words(words, &mut [0; 16], 0, 0, &[], &[0]);
        RunWithWords::answer(fields)?;
        let mut table = Box::new([0; GRAPH_WORDS]);
        table.copy_from_slice(&words[..GRAPH_WORDS]);
        Ok(Graph { words: table })
    }

    /// The graph's text.
    pub fn write(&self) -> String {
        let mut text = vec![0; TEXT_BYTES];
        let fields = operations::write(&self.words[..], &mut text);
        Refusal::answer(fields.number).expect("a text holds any graph");
        text.truncate(fields.length as usize);
        String::from_utf8(text).expect("a graph's text is ASCII")
    }

    /// The machine whose cycles do what the graph's blocks do.
    pub fn synthesise(&self) -> Machine {
        let mut words = Box::new([0; MACHINE_WORDS]);
        let number = operations::synthesise(&self.words[..], &mut words[..]);
        Refusal::answer(number).expect("any graph has a machine");
        Machine::from(words)
    }

    /// Runs at most `budget` blocks from a start block. Refusals 12, 9. Registers from R up keep
    /// their words.
    pub fn run(&self, registers: &mut [u32; 16], start: u32, budget: u32) -> Result<Run, Refusal> {
        Run::answer(operations::run_graph(&self.words[..], registers, start, budget))
    }

    /// As `run`, with a list of words for `in`: the start is arrival 0, each step to a block of the
    /// starter list the next one, and arrival k uses word k. Refusals 9, 11. The order of the
    /// starters does not matter, nor do repeats; with [`Machine::starters`] the graph and its
    /// machine use the same words.
    pub fn run_with_words(
        &self,
        registers: &mut [u32; 16],
        start: u32,
        budget: u32,
        words: &[u32],
        starters: &[u32],
    ) -> Result<RunWithWords, Refusal> {
        let table = &self.words[..];
        let fields =
            operations::run_graph_with_words(table, registers, start, budget, words, starters);
        RunWithWords::answer(fields)
    }

    /// The number of blocks, B.
    pub fn blocks(&self) -> u32 {
        self.words[layout::graph::BLOCKS]
    }

    /// The number of registers, R.
    pub fn registers(&self) -> u32 {
        self.words[layout::graph::REGISTERS]
    }

    /// A block below B.
    ///
    /// ```
    /// use gutkavu::{Ending, Graph};
    ///
    /// let graph: Graph = "graph,1,2\nblock,0\nset,1,-5\nsub,0,0,1\ngoto,0\n".parse()?;
    /// let block = graph.block(0).expect("block 0 is always there");
    /// assert_eq!(block.instructions[0].to_string(), "set,1,-5");
    /// assert_eq!(block.instructions[1].to_string(), "sub,0,0,1");
    /// assert_eq!((block.ending, graph.block(1)), (Ending::Goto(0), None));
    /// # Ok::<(), Box<dyn std::error::Error>>(())
    /// ```
    pub fn block(&self, number: u32) -> Option<Block> {
        let blocks = self.words[layout::graph::FIRST_BLOCK..].chunks(layout::graph::BLOCK_WORDS);
        let mut present = blocks.take(self.blocks() as usize);
        present.nth(number as usize).map(Block::decode)
    }

    /// The graph table.
    pub fn words(&self) -> &[u32; GRAPH_WORDS] {
        &self.words
    }
}

impl FromStr for Graph {
    type Err = ReadRefusal;

    fn from_str(text: &str) -> Result<Graph, ReadRefusal> {
        Graph::read(text.as_bytes())
    }
}

/// The graph's text.
impl fmt::Display for Graph {
    fn fmt(&self, f: &mut fmt::Formatter) -> fmt::Result {
        f.write_str(&self.write())
    }
}

impl fmt::Debug for Graph {
    fn fmt(&self, f: &mut fmt::Formatter) -> fmt::Result {
        let mut parts = f.debug_struct("Graph");
        parts.field("blocks", &self.blocks()).field("registers", &self.registers());
        parts.finish_non_exhaustive()
    }
}
