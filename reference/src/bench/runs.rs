//! The runs that are timed: from block or state 0, with the same registers each time.

use super::work::{Tables, Work};
use gutkavu::operations::{
    self, MachineRunFields, MachineRunWithWordsFields, RunFields, RunWithWordsFields,
};
use gutkavu::REGISTER_WORDS;
use std::hint::black_box;

type GraphRun = fn(&[u32], &mut [u32], u32, u32) -> RunFields;
type MachineRun = fn(&[u32], &mut [u32], u32, u32) -> MachineRunFields;
type GraphRunWithWords = fn(&[u32], &mut [u32], u32, u32, &[u32], &[u32]) -> RunWithWordsFields;
type MachineRunWithWords = fn(&[u32], &mut [u32], u32, u32, &[u32]) -> MachineRunWithWordsFields;

/// The four runs of one program.
pub struct Program {
    run_graph: GraphRun,
    run_machine: MachineRun,
    run_graph_with_words: GraphRunWithWords,
    run_machine_with_words: MachineRunWithWords,
}

pub const PROVED: Program = Program {
    run_graph: operations::run_graph,
    run_machine: operations::run_machine,
    run_graph_with_words: operations::run_graph_with_words,
    run_machine_with_words: operations::run_machine_with_words,
};

pub const PLAIN: Program = Program {
    run_graph: plain::run_graph,
    run_machine: plain::run_machine,
    run_graph_with_words: plain::run_graph_with_words,
    run_machine_with_words: plain::run_machine_with_words,
};

/// Number, halted or outcome, count, next and flag; a machine's blocks, a graph's 0; and the
/// registers after.
pub type Ran = ([u32; 5], u64, [u32; REGISTER_WORDS]);

/// One of the four runs, with a budget.
pub type Kind = fn(&Program, &Work, &Tables, u32) -> Ran;

impl Program {
    pub fn graph(&self, work: &Work, tables: &Tables, budget: u32) -> Ran {
        let mut file = black_box(work.file);
        let ran = (self.run_graph)(black_box(&tables.graph), &mut file, 0, black_box(budget));
        let RunFields { number, halted, count, next, flag } = ran;
        ([number, halted, count, next, flag], 0, file)
    }

    pub fn machine(&self, work: &Work, tables: &Tables, budget: u32) -> Ran {
        let mut file = black_box(work.file);
        let ran = (self.run_machine)(black_box(&tables.machine), &mut file, 0, black_box(budget));
        let MachineRunFields { number, halted, count, next, flag, blocks } = ran;
        ([number, halted, count, next, flag], blocks, file)
    }

    /// The starters are those of the machine.
    pub fn graph_with_words(&self, work: &Work, tables: &Tables, budget: u32) -> Ran {
        let (mut file, budget) = (black_box(work.file), black_box(budget));
        let (words, starters) = (black_box(&work.words), black_box(tables.starters()));
        let table = black_box(&tables.graph);
        let ran = (self.run_graph_with_words)(table, &mut file, 0, budget, words, starters);
        let RunWithWordsFields { number, outcome, count, next, flag } = ran;
        ([number, outcome, count, next, flag], 0, file)
    }

    pub fn machine_with_words(&self, work: &Work, tables: &Tables, budget: u32) -> Ran {
        let (mut file, budget) = (black_box(work.file), black_box(budget));
        let (table, words) = (black_box(&tables.machine), black_box(&work.words));
        let ran = (self.run_machine_with_words)(table, &mut file, 0, budget, words);
        let MachineRunWithWordsFields { number, outcome, count, next, flag, blocks } = ran;
        ([number, outcome, count, next, flag], blocks, file)
    }
}
