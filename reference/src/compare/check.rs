//! One case by this program and by a library, operation for operation.

use super::lent::{Differing, Lent};
use super::library::{padded, Library};
use reference::answer::{fresh_bytes, fresh_words, patch};
use reference::case::{Asked, Bounds, Captures, Case};
use reference::operation::{Fields, Operation};
use reference::operations::{
    self, CaptureAnswer, FirstTouchingAnswer, MachineAnswer, RunAnswer, TouchesAnswer,
    WordsRunAnswer,
};

/// What an operation answered, and the first place of its buffers that differs. The buffers have
/// the same words before it in both programs, so one difference does not bring about others.
pub struct Compared {
    pub operation: Operation,
    pub expected: Fields,
    pub found: Fields,
    pub differing: Option<Differing>,
}

impl Compared {
    pub fn same(&self) -> bool {
        self.expected == self.found && self.differing.is_none()
    }
}

fn read(library: &impl Library, text: &[u8], graph: &mut [u32]) -> Compared {
    let (mut lent_text, mut lent_graph) = (Lent::new(text), Lent::new(graph));
    let found = library.read(&mut lent_text, &mut lent_graph);
    let answer = operations::read(text, graph);
    Compared {
        operation: Operation::Read,
        expected: padded(&[answer.number, answer.line]),
        found,
        differing: (lent_text.differing("text", text))
            .or_else(|| lent_graph.differing("graph table", graph)),
    }
}

fn write(library: &impl Library, graph: &[u32], output: &mut [u8]) -> Compared {
    let (mut lent_graph, mut lent_output) = (Lent::new(graph), Lent::new(output));
    let found = library.write(&mut lent_graph, &mut lent_output);
    let answer = operations::write(graph, output);
    Compared {
        operation: Operation::Write,
        expected: padded(&[answer.number, answer.length]),
        found,
        differing: (lent_graph.differing("graph table", graph))
            .or_else(|| lent_output.differing("output", output)),
    }
}

fn synthesise(library: &impl Library, graph: &[u32], machine: &mut [u32]) -> Compared {
    let (mut lent_graph, mut lent_machine) = (Lent::new(graph), Lent::new(machine));
    let found = library.synthesise(&mut lent_graph, &mut lent_machine);
    Compared {
        operation: Operation::Synthesise,
        expected: padded(&[operations::synthesise(graph, machine)]),
        found,
        differing: (lent_graph.differing("graph table", graph))
            .or_else(|| lent_machine.differing("machine table", machine)),
    }
}

pub fn run_fields(answer: RunAnswer) -> Fields {
    let RunAnswer { number, halted, count, next, flag } = answer;
    padded(&[number, u32::from(halted), count, next, u32::from(flag)])
}

fn run_graph(library: &impl Library, graph: &[u32], case: &Case) -> Compared {
    let (start, budget) = (case.start_block, case.block_budget);
    let mut registers = case.registers.clone();
    let (mut lent_graph, mut lent_registers) = (Lent::new(graph), Lent::new(&registers));
    let found = library.run_graph(&mut lent_graph, &mut lent_registers, start, budget);
    Compared {
        operation: Operation::RunGraph,
        expected: run_fields(operations::run_graph(graph, &mut registers, start, budget)),
        found,
        differing: (lent_graph.differing("graph table", graph))
            .or_else(|| lent_registers.differing("registers", &registers)),
    }
}

/// The fields of a machine's run, the blocks being the last.
pub fn machine_fields<A>(answer: MachineAnswer<A>, fields: fn(A) -> Fields) -> Fields {
    let mut fields = fields(answer.run);
    fields[5] = answer.blocks;
    fields
}

fn run_machine(library: &impl Library, machine: &[u32], case: &Case) -> Compared {
    let (start, budget) = (case.start_state, case.cycle_budget);
    let mut registers = case.registers.clone();
    let (mut lent_machine, mut lent_registers) = (Lent::new(machine), Lent::new(&registers));
    let found = library.run_machine(&mut lent_machine, &mut lent_registers, start, budget);
    let answer = operations::run_machine(machine, &mut registers, start, budget);
    Compared {
        operation: Operation::RunMachine,
        expected: machine_fields(answer, run_fields),
        found,
        differing: (lent_machine.differing("machine table", machine))
            .or_else(|| lent_registers.differing("registers", &registers)),
    }
}

pub fn words_fields(answer: WordsRunAnswer) -> Fields {
    let WordsRunAnswer { number, outcome, count, next, flag } = answer;
    padded(&[number, outcome, count, next, u32::from(flag)])
}

fn run_graph_with_words(library: &impl Library, graph: &[u32], case: &Case) -> Compared {
    let (start, budget) = (case.start_block, case.block_budget);
    let (words, starters) = (&case.words[..], &case.starters[..]);
    let mut registers = case.registers.clone();
    let (mut lent_graph, mut lent_registers) = (Lent::new(graph), Lent::new(&registers));
    let (mut lent_words, mut lent_starters) = (Lent::new(words), Lent::new(starters));
    let found = library.run_graph_with_words(
        &mut lent_graph, &mut lent_registers, start, budget, &mut lent_words, &mut lent_starters,
    );
    let answer =
        operations::run_graph_with_words(graph, &mut registers, start, budget, words, starters);
    Compared {
        operation: Operation::RunGraphWithWords,
        expected: words_fields(answer),
        found,
        differing: (lent_graph.differing("graph table", graph))
            .or_else(|| lent_registers.differing("registers", &registers))
            .or_else(|| lent_words.differing("words", words))
            .or_else(|| lent_starters.differing("starters", starters)),
    }
}

fn run_machine_with_words(library: &impl Library, machine: &[u32], case: &Case) -> Compared {
    let (start, budget, words) = (case.start_state, case.cycle_budget, &case.words[..]);
    let mut registers = case.registers.clone();
    let (mut lent_machine, mut lent_registers) = (Lent::new(machine), Lent::new(&registers));
    let mut lent_words = Lent::new(words);
    let found = library.run_machine_with_words(
        &mut lent_machine, &mut lent_registers, start, budget, &mut lent_words,
    );
    let answer = operations::run_machine_with_words(machine, &mut registers, start, budget, words);
    Compared {
        operation: Operation::RunMachineWithWords,
        expected: machine_fields(answer, words_fields),
        found,
        differing: (lent_machine.differing("machine table", machine))
            .or_else(|| lent_registers.differing("registers", &registers))
            .or_else(|| lent_words.differing("words", words)),
    }
}

pub fn capture_fields(answer: CaptureAnswer) -> Fields {
    let CaptureAnswer { number, recording, line, shared, differs, cycle } = answer;
    [number.into(), recording.into(), line, shared, differs.into(), cycle.into()]
}

fn compare_captures(library: &impl Library, captures: &Captures) -> Compared {
    let Captures { registers, first, second } = captures;
    let (mut lent_first, mut lent_second) = (Lent::new(first), Lent::new(second));
    let found = library.compare_captures(*registers, &mut lent_first, &mut lent_second);
    Compared {
        operation: Operation::CompareCaptures,
        expected: capture_fields(operations::compare_captures(*registers, first, second)),
        found,
        differing: (lent_first.differing("first recording", first))
            .or_else(|| lent_second.differing("second recording", second)),
    }
}

pub fn touches_fields(answer: TouchesAnswer) -> Fields {
    padded(&[answer.number, answer.touched.into()])
}

fn touches(library: &impl Library, machine: &[u32], asked: Asked) -> Compared {
    let Asked { state, register } = asked;
    let mut lent_machine = Lent::new(machine);
    let found = library.touches(&mut lent_machine, state, register);
    Compared {
        operation: Operation::Touches,
        expected: touches_fields(operations::touches(machine, state, register)),
        found,
        differing: lent_machine.differing("machine table", machine),
    }
}

pub fn first_touching_fields(answer: FirstTouchingAnswer) -> Fields {
    padded(&[answer.number, answer.state])
}

fn first_touching(library: &impl Library, machine: &[u32], register: u32) -> Compared {
    let mut lent_machine = Lent::new(machine);
    let found = library.first_touching(&mut lent_machine, register);
    Compared {
        operation: Operation::FirstTouching,
        expected: first_touching_fields(operations::first_touching(machine, register)),
        found,
        differing: lent_machine.differing("machine table", machine),
    }
}

/// Both buffers are written, and each is looked at.
fn bounds(library: &impl Library, machine: &[u32], case: &Case) -> Compared {
    let (state, Bounds { mut lowest, mut highest }) = (case.asked.state, case.bounds.clone());
    let mut lent_machine = Lent::new(machine);
    let (mut lent_lowest, mut lent_highest) = (Lent::new(&lowest), Lent::new(&highest));
    let found = library.bounds(&mut lent_machine, &mut lent_lowest, &mut lent_highest, state);
    Compared {
        operation: Operation::Bounds,
        expected: padded(&[operations::bounds(machine, &mut lowest, &mut highest, state)]),
        found,
        differing: (lent_machine.differing("machine table", machine))
            .or_else(|| lent_lowest.differing("lowest", &lowest))
            .or_else(|| lent_highest.differing("highest", &highest)),
    }
}

/// What each operation came to, and the two buffers as the runs found them.
pub struct Checked {
    pub compared: [Compared; 11],
    pub graph: Vec<u32>,
    pub machine: Vec<u32>,
}

/// The eleven operations on a case, each on the buffers that this program made so far.
pub fn check(case: &Case, library: &impl Library) -> Checked {
    let mut graph = fresh_words(case.graph_length);
    let read = read(library, &case.text, &mut graph);
    patch(&mut graph, &case.graph_patches);
    let write = write(library, &graph, &mut fresh_bytes(case.output_length));
    let mut machine = fresh_words(case.machine_length);
    let synthesise = synthesise(library, &graph, &mut machine);
    patch(&mut machine, &case.machine_patches);
    let compared = [
        read,
        write,
        synthesise,
        run_graph(library, &graph, case),
        run_machine(library, &machine, case),
        run_graph_with_words(library, &graph, case),
        run_machine_with_words(library, &machine, case),
        compare_captures(library, &case.captures),
        touches(library, &machine, case.asked),
        first_touching(library, &machine, case.asked.register),
        bounds(library, &machine, case),
    ];
    Checked { compared, graph, machine }
}
