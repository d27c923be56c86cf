//! Every refusal that applies to a call, whichever of them is answered.
//!
//! Where a refused buffer or line leaves open what another refusal means, the narrow reading is
//! taken: a fault counts where the words that are there show it.

mod recordings;
mod tables;
mod text;

use crate::case::{Bounds, Case};
use crate::graph::signed;
use crate::operation::{Operation, Refusal};
use crate::parse::MAX_TEXT;
use crate::print::print;
use tables::{GraphFacts, MachineFacts};

/// A refusal that applies. Line is 0 outside texts, recording outside recordings.
#[derive(Clone, Copy, Debug, PartialEq, Eq)]
pub struct Fault {
    pub refusal: Refusal,
    pub recording: u32,
    pub line: u64,
}

impl Fault {
    fn of_call(refusal: Refusal) -> Fault {
        Fault { refusal, recording: 0, line: 0 }
    }

    /// Its place in the papers' order: what concerns the whole call, then recordings, then lines.
    fn rank(&self, operation: Operation) -> (u32, u64, usize) {
        let order = operation.refusals().iter().position(|&one| one == self.refusal);
        (self.recording, self.line, order.unwrap_or(usize::MAX))
    }
}

/// The faults of one call, in no order that means anything.
#[derive(Clone, Debug)]
pub struct Faults {
    pub operation: Operation,
    pub all: Vec<Fault>,
}

impl Faults {
    /// The one that is answered, by the papers' order.
    pub fn first(&self) -> Option<&Fault> {
        self.all.iter().min_by_key(|fault| fault.rank(self.operation))
    }
}

/// The refusals of those that apply.
fn applying(refusals: &[(Refusal, bool)]) -> Vec<Fault> {
    let applying = refusals.iter().filter(|(_, applies)| *applies);
    applying.map(|&(refusal, _)| Fault::of_call(refusal)).collect()
}

/// No text is shorter than that of one block that halts: `graph,1,1`, `block,0`, `halt`.
const SHORTEST_TEXT: usize = 23;

/// What is known of a case's buffers and lists, each by itself.
struct Facts<'a> {
    case: &'a Case,
    graph: GraphFacts,
    machine: MachineFacts,
    short_registers: bool,
}

impl Facts<'_> {
    fn read(&self) -> Vec<Fault> {
        let whole = [
            (Refusal::LongText, text::too_long(&self.case.text)),
            (Refusal::ShortGraph, self.graph.short),
        ];
        [applying(&whole), text::faults(&self.case.text)].concat()
    }

    /// The length needed is that of the table's text; where it has none, that of any text.
    fn short_output(&self) -> bool {
        let length = self.case.output_length as usize;
        match &self.graph.graph {
            _ if length >= MAX_TEXT => false,
            Some(graph) => length < print(graph).len(),
            None => length < SHORTEST_TEXT,
        }
    }

    fn write(&self) -> Vec<Fault> {
        applying(&[
            (Refusal::ShortGraph, self.graph.short),
            (Refusal::GraphTable, self.graph.refused),
            (Refusal::ShortOutput, self.short_output()),
        ])
    }

    fn synthesise(&self) -> Vec<Fault> {
        applying(&[
            (Refusal::ShortGraph, self.graph.short),
            (Refusal::ShortMachine, self.machine.short),
            (Refusal::GraphTable, self.graph.refused),
        ])
    }

    fn run_graph(&self, with_words: bool) -> Vec<Fault> {
        let past = |start: u32| self.graph.blocks.is_some_and(|blocks| start >= blocks);
        let list = &self.case.starters;
        let lacking = [0, self.case.start_block].iter().any(|block| !list.contains(block));
        let starters = lacking || list.iter().any(|&block| past(block));
        applying(&[
            (Refusal::ShortGraph, self.graph.short),
            (Refusal::ShortRegisters, self.short_registers),
            (Refusal::GraphTable, self.graph.refused),
            (Refusal::ReadsWords, !with_words && self.graph.reads_words),
            (Refusal::Start, past(self.case.start_block)),
            (Refusal::Starters, with_words && starters),
        ])
    }

    fn run_machine(&self, with_words: bool) -> Vec<Fault> {
        let start = self.case.start_state;
        applying(&[
            (Refusal::ShortMachine, self.machine.short),
            (Refusal::ShortRegisters, self.short_registers),
            (Refusal::MachineTable, self.machine.refused),
            (Refusal::ReadsWords, !with_words && self.machine.reads_words),
            (Refusal::Start, self.machine.states.is_some_and(|states| start >= states)),
        ])
    }

    fn touches(&self) -> Vec<Fault> {
        let state = self.case.asked.state;
        applying(&[
            (Refusal::ShortMachine, self.machine.short),
            (Refusal::MachineTable, self.machine.refused),
            (Refusal::State, self.machine.states.is_some_and(|states| state >= states)),
        ])
    }

    fn first_touching(&self) -> Vec<Fault> {
        applying(&[
            (Refusal::ShortMachine, self.machine.short),
            (Refusal::MachineTable, self.machine.refused),
        ])
    }

    /// A lowest above its highest, where both words are there, of a register below R.
    fn reversed(&self) -> bool {
        let Bounds { lowest, highest } = &self.case.bounds;
        let used = self.machine.registers.map_or(0, |count| count.min(16)) as usize;
        let mut ends = lowest.iter().zip(highest).take(used);
        ends.any(|(&low, &high)| signed(low) > signed(high))
    }

    fn bounds(&self) -> Vec<Fault> {
        let Bounds { lowest, highest } = &self.case.bounds;
        let state = self.case.asked.state;
        applying(&[
            (Refusal::ShortMachine, self.machine.short),
            (Refusal::ShortLowest, lowest.len() < 16),
            (Refusal::ShortHighest, highest.len() < 16),
            (Refusal::MachineTable, self.machine.refused),
            (Refusal::State, self.machine.states.is_some_and(|states| state >= states)),
            (Refusal::Reversed, self.reversed()),
        ])
    }

    fn of(&self, operation: Operation) -> Vec<Fault> {
        match operation {
            Operation::Read => self.read(),
            Operation::Write => self.write(),
            Operation::Synthesise => self.synthesise(),
            Operation::RunGraph => self.run_graph(false),
            Operation::RunMachine => self.run_machine(false),
            Operation::RunGraphWithWords => self.run_graph(true),
            Operation::RunMachineWithWords => self.run_machine(true),
            Operation::CompareCaptures => recordings::faults(&self.case.captures),
            Operation::Touches => self.touches(),
            Operation::FirstTouching => self.first_touching(),
            Operation::Bounds => self.bounds(),
        }
    }
}

/// The faults of each call of a case, given the buffers as its runs find them.
pub fn faults(case: &Case, graph: &[u32], machine: &[u32]) -> [Faults; 11] {
    let facts = Facts {
        case,
        graph: GraphFacts::of(graph),
        machine: MachineFacts::of(machine),
        short_registers: case.registers.len() < 16,
    };
    Operation::ALL.map(|operation| Faults { operation, all: facts.of(operation) })
}
