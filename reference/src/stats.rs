//! How many cases hit each refusal number of each operation, each outcome of a run, of a comparison
//! of captures and of a question about registers, each flag at each end of a run, each kind of block
//! count at each end of a machine's run, and each pair of refusals that meet.

use crate::answer::{answer, buffers_of, Answer};
use crate::case::Case;
use crate::faults::faults;
use crate::meeting::{self, meetings, Meeting};
use crate::operation::Operation;
use crate::operations::CaptureAnswer;
use crate::run::NONE;
use std::collections::BTreeMap;

/// What is counted, in the order of printing.
#[derive(Clone, Copy, Debug, PartialEq, Eq, PartialOrd, Ord)]
pub enum Counted {
    Read,
    Write,
    Synthesise,
    RunGraph,
    RunMachine,
    RunGraphWithWords,
    RunMachineWithWords,
    CompareCaptures,
    Touches,
    FirstTouching,
    Bounds,
    GraphHalted,
    MachineHalted,
    GraphOutcome,
    MachineOutcome,
    CaptureOutcome,
    Touched,
    StateFound,
    WriteOfPatched,
    RunOfPatched,
    WordsRunOfPatched,
    TouchesOfPatched,
    BoundsOfPatched,
}

impl Counted {
    fn name(self) -> &'static str {
        match self {
            Counted::Read => "read",
            Counted::Write => "write",
            Counted::Synthesise => "synthesise",
            Counted::RunGraph => "run graph",
            Counted::RunMachine => "run machine",
            Counted::RunGraphWithWords => "run graph with words",
            Counted::RunMachineWithWords => "run machine with words",
            Counted::CompareCaptures => "compare captures",
            Counted::Touches => "touches",
            Counted::FirstTouching => "first touching",
            Counted::Bounds => "bounds",
            Counted::GraphHalted => "graph halted",
            Counted::MachineHalted => "machine halted",
            Counted::GraphOutcome => "graph outcome with words",
            Counted::MachineOutcome => "machine outcome with words",
            Counted::CaptureOutcome => "outcome of captures",
            Counted::Touched => "touched",
            Counted::StateFound => "touching state found",
            Counted::WriteOfPatched => "write of a patched graph",
            Counted::RunOfPatched => "run of a patched machine",
            Counted::WordsRunOfPatched => "run with words of a patched machine",
            Counted::TouchesOfPatched => "touches of a patched machine",
            Counted::BoundsOfPatched => "bounds of a patched machine",
        }
    }
}

/// 0 where two captures share no cycle, 1 where no shared one differs, 2 where one does.
fn capture_outcome(answer: CaptureAnswer) -> u32 {
    u32::from(answer.shared > 0) + u32::from(answer.differs)
}

/// Counts by what is counted and its number or outcome; flags and kinds of block counts by the run
/// and how it ended.
#[derive(Default)]
pub struct Stats {
    counts: BTreeMap<(Counted, u32), usize>,
    flags: BTreeMap<(Operation, u32, bool), usize>,
    blocks: BTreeMap<(Operation, u64, u64), usize>,
    met: BTreeMap<Meeting, usize>,
}

impl Stats {
    fn count(&mut self, counted: Counted, number: u32) {
        *self.counts.entry((counted, number)).or_insert(0) += 1;
    }

    fn add(&mut self, case: &Case, answer: &Answer) {
        let (graph, machine) = (answer.run_graph.answer, answer.run_machine.answer.run);
        let graph_words = answer.run_graph_with_words.answer;
        let machine_words = answer.run_machine_with_words.answer.run;
        let (captures, touches, first) = (answer.captures, answer.touches, answer.first_touching);
        self.count(Counted::Read, answer.read.number);
        self.count(Counted::Write, answer.write.number);
        self.count(Counted::Synthesise, answer.synthesise);
        self.count(Counted::RunGraph, graph.number);
        self.count(Counted::RunMachine, machine.number);
        self.count(Counted::RunGraphWithWords, graph_words.number);
        self.count(Counted::RunMachineWithWords, machine_words.number);
        self.count(Counted::CompareCaptures, captures.number);
        self.count(Counted::Touches, touches.number);
        self.count(Counted::FirstTouching, first.number);
        self.count(Counted::Bounds, answer.bounds.number);
        let outcomes = [
            (Counted::GraphHalted, graph.number, u32::from(graph.halted)),
            (Counted::MachineHalted, machine.number, u32::from(machine.halted)),
            (Counted::GraphOutcome, graph_words.number, graph_words.outcome),
            (Counted::MachineOutcome, machine_words.number, machine_words.outcome),
            (Counted::CaptureOutcome, captures.number, capture_outcome(captures)),
            (Counted::Touched, touches.number, u32::from(touches.touched)),
            (Counted::StateFound, first.number, u32::from(first.state != NONE)),
        ];
        for (counted, _, outcome) in outcomes.into_iter().filter(|&(_, number, _)| number == 0) {
            self.count(counted, outcome);
        }
        if !case.graph_patches.is_empty() {
            self.count(Counted::WriteOfPatched, answer.write.number);
        }
        if !case.machine_patches.is_empty() {
            self.count(Counted::RunOfPatched, machine.number);
            self.count(Counted::WordsRunOfPatched, machine_words.number);
            self.count(Counted::TouchesOfPatched, touches.number);
            self.count(Counted::BoundsOfPatched, answer.bounds.number);
        }
    }

    fn add_flags(&mut self, answer: &Answer) {
        let (graph, machine) = (answer.run_graph.answer, answer.run_machine.answer.run);
        let graph_words = answer.run_graph_with_words.answer;
        let machine_words = answer.run_machine_with_words.answer.run;
        let runs = [
            (graph.number, Operation::RunGraph, u32::from(graph.halted), graph.flag),
            (machine.number, Operation::RunMachine, u32::from(machine.halted), machine.flag),
            (
                graph_words.number,
                Operation::RunGraphWithWords,
                graph_words.outcome,
                graph_words.flag,
            ),
            (
                machine_words.number,
                Operation::RunMachineWithWords,
                machine_words.outcome,
                machine_words.flag,
            ),
        ];
        for (_, run, end, flag) in runs.into_iter().filter(|&(number, ..)| number == 0) {
            *self.flags.entry((run, end, flag)).or_insert(0) += 1;
        }
    }

    fn add_blocks(&mut self, answer: &Answer) {
        let (alone, words) = (answer.run_machine.answer, answer.run_machine_with_words.answer);
        let fields = |number: u32, end: u32, count: u32, blocks| {
            [number.into(), end.into(), count.into(), 0, 0, blocks]
        };
        let runs = [
            (
                Operation::RunMachine,
                fields(alone.run.number, alone.run.halted.into(), alone.run.count, alone.blocks),
            ),
            (
                Operation::RunMachineWithWords,
                fields(words.run.number, words.run.outcome, words.run.count, words.blocks),
            ),
        ];
        for (run, fields) in runs {
            if let Some((end, kind)) = run.block_kind(fields) {
                *self.blocks.entry((run, end, kind)).or_insert(0) += 1;
            }
        }
    }

    fn add_meetings(&mut self, case: &Case) {
        let (graph, machine) = buffers_of(case);
        for meeting in faults(case, &graph, &machine).iter().flat_map(meetings) {
            *self.met.entry(meeting).or_insert(0) += 1;
        }
    }

    pub fn of(cases: &[Case]) -> Stats {
        let mut stats = Stats::default();
        for case in cases {
            let answer = answer(case);
            stats.add(case, &answer);
            stats.add_flags(&answer);
            stats.add_blocks(&answer);
            stats.add_meetings(case);
        }
        stats
    }

    pub fn get(&self, counted: Counted, number: u32) -> usize {
        self.counts.get(&(counted, number)).copied().unwrap_or(0)
    }

    /// Runs of a kind that ended so (0 spent, 1 halted, 2 dry) with the flag so.
    pub fn flags(&self, run: Operation, end: u32, flag: bool) -> usize {
        self.flags.get(&(run, end, flag)).copied().unwrap_or(0)
    }

    /// Runs of a machine that ended so with fewer blocks than cycles (0), as many (1) or more (2).
    pub fn blocks(&self, run: Operation, end: u64, kind: u64) -> usize {
        self.blocks.get(&(run, end, kind)).copied().unwrap_or(0)
    }

    pub fn met(&self, meeting: &Meeting) -> usize {
        self.met.get(meeting).copied().unwrap_or(0)
    }

    /// One line for each count: name, number, cases; one for each flag: run, end, flag, cases; one for
    /// each kind of block count: run, end, kind, cases; then one for each operation with its pairs.
    pub fn print(&self) -> String {
        let line = |(&(counted, number), count): (&(Counted, u32), &usize)| {
            format!("{},{number},{count}\n", counted.name())
        };
        let flag = |(&(run, end, flag), count): (&(Operation, u32, bool), &usize)| {
            format!("flag of {},{end},{},{count}\n", run.name(), u32::from(flag))
        };
        let block = |(&(run, end, kind), count): (&(Operation, u64, u64), &usize)| {
            format!("blocks of {},{end},{kind},{count}\n", run.name())
        };
        let (flags, blocks) = (self.flags.iter().map(flag), self.blocks.iter().map(block));
        let pairs = [meeting::print(&self.met)];
        self.counts.iter().map(line).chain(flags).chain(blocks).chain(pairs).collect()
    }
}
