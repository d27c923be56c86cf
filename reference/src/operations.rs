//! The eleven operations on lent buffers, with their refusal numbers.

use crate::block_set::BlockSet;
use crate::bounds::{self, Range};
use crate::capture::{self, Fault, Findings};
use crate::graph::{Graph, MAX_REGISTERS};
use crate::graph_table::{self, GRAPH_WORDS};
use crate::machine::Machine;
use crate::machine_table::{self, MACHINE_WORDS};
use crate::parse::{parse, MAX_TEXT};
use crate::print::print;
use crate::run::{self, Outcome, Run};
use crate::synthesis;

#[derive(Clone, Copy, Debug, PartialEq, Eq)]
pub struct ReadAnswer {
    pub number: u32,
    pub line: u32,
}

#[derive(Clone, Copy, Debug, PartialEq, Eq)]
pub struct WriteAnswer {
    pub number: u32,
    pub length: u32,
}

#[derive(Clone, Copy, Debug, PartialEq, Eq)]
pub struct RunAnswer {
    pub number: u32,
    pub halted: bool,
    pub count: u32,
    pub next: u32,
    pub flag: bool,
}

impl RunAnswer {
    fn refused(number: u32) -> RunAnswer {
        RunAnswer { number, halted: false, count: 0, next: 0, flag: false }
    }

    fn of(run: Result<Run, u32>) -> RunAnswer {
        let Run { outcome, count, next, flag, .. } = match run {
            Ok(run) => run,
            Err(number) => return RunAnswer::refused(number),
        };
        RunAnswer { number: 0, halted: outcome == Outcome::Halted, count, next, flag }
    }
}

/// The outcome is 0 spent, 1 halted, 2 dry.
#[derive(Clone, Copy, Debug, PartialEq, Eq)]
pub struct WordsRunAnswer {
    pub number: u32,
    pub outcome: u32,
    pub count: u32,
    pub next: u32,
    pub flag: bool,
}

impl WordsRunAnswer {
    fn of(run: Result<Run, u32>) -> WordsRunAnswer {
        match run {
            Ok(Run { outcome, count, next, flag, .. }) => {
                WordsRunAnswer { number: 0, outcome: outcome as u32, count, next, flag }
            }
            Err(number) => WordsRunAnswer { number, outcome: 0, count: 0, next: 0, flag: false },
        }
    }
}

/// What a machine's run answers: the fields of any run, and the blocks run over all its cycles.
#[derive(Clone, Copy, Debug, PartialEq, Eq)]
pub struct MachineAnswer<A> {
    pub run: A,
    pub blocks: u64,
}

impl<A> MachineAnswer<A> {
    /// No block is run by a run that is refused.
    fn of(run: Result<Run, u32>, answer: fn(Result<Run, u32>) -> A) -> MachineAnswer<A> {
        MachineAnswer { run: answer(run), blocks: run.map_or(0, |run| run.blocks) }
    }
}

/// The fields that a comparison of two recordings answers; the cycle is 0 where none differs.
#[derive(Clone, Copy, Debug, PartialEq, Eq)]
pub struct CaptureAnswer {
    pub number: u32,
    pub recording: u32,
    pub line: u64,
    pub shared: u64,
    pub differs: bool,
    pub cycle: u32,
}

impl CaptureAnswer {
    fn compared(findings: Findings) -> CaptureAnswer {
        let Findings { shared, differs_at } = findings;
        let (differs, cycle) = (differs_at.is_some(), differs_at.unwrap_or(0));
        CaptureAnswer { number: 0, recording: 0, line: 0, shared, differs, cycle }
    }

    fn refused(fault: Fault) -> CaptureAnswer {
        let Fault { recording, line, number } = fault;
        CaptureAnswer { number, recording, line, shared: 0, differs: false, cycle: 0 }
    }
}

#[derive(Clone, Copy, Debug, PartialEq, Eq)]
pub struct TouchesAnswer {
    pub number: u32,
    pub touched: bool,
}

/// The state is 255 where none touches the register.
#[derive(Clone, Copy, Debug, PartialEq, Eq)]
pub struct FirstTouchingAnswer {
    pub number: u32,
    pub state: u32,
}

pub fn read(text: &[u8], table: &mut [u32]) -> ReadAnswer {
    if text.len() > MAX_TEXT {
        return ReadAnswer { number: 1, line: 0 };
    }
    if table.len() < GRAPH_WORDS {
        return ReadAnswer { number: 7, line: 0 };
    }
    match parse(text) {
        Ok(graph) => {
            table[..GRAPH_WORDS].copy_from_slice(&graph_table::encode(&graph));
            ReadAnswer { number: 0, line: 0 }
        }
        Err(fault) => ReadAnswer { number: fault.number, line: fault.line },
    }
}

pub fn write(table: &[u32], output: &mut [u8]) -> WriteAnswer {
    if table.len() < GRAPH_WORDS {
        return WriteAnswer { number: 7, length: 0 };
    }
    let Some(graph) = graph_table::decode(table) else {
        return WriteAnswer { number: 6, length: 0 };
    };
    let text = print(&graph).into_bytes();
    let length = text.len() as u32;
    match output.get_mut(..text.len()) {
        Some(place) => {
            place.copy_from_slice(&text);
            WriteAnswer { number: 0, length }
        }
        None => WriteAnswer { number: 8, length },
    }
}

pub fn synthesise(table: &[u32], machine: &mut [u32]) -> u32 {
    if table.len() < GRAPH_WORDS || machine.len() < MACHINE_WORDS {
        return 7;
    }
    let Some(graph) = graph_table::decode(table) else {
        return 6;
    };
    let (grouping, made) = synthesis::synthesise(&graph);
    machine[..MACHINE_WORDS].copy_from_slice(&machine_table::encode(&grouping, &made));
    0
}

/// A word as an index, where it is below the limit.
fn below(word: u32, limit: usize) -> Option<usize> {
    usize::try_from(word).ok().filter(|&index| index < limit)
}

/// The graph of a run, or 7 or 6.
fn run_of_graph(table: &[u32], registers: &[u32]) -> Result<Graph, u32> {
    if table.len() < GRAPH_WORDS || registers.len() < MAX_REGISTERS {
        return Err(7);
    }
    graph_table::decode(table).ok_or(6)
}

/// The machine of a table, or 7 or 10.
fn machine_of(table: &[u32]) -> Result<Machine, u32> {
    if table.len() < MACHINE_WORDS {
        return Err(7);
    }
    machine_table::decode(table).ok_or(10)
}

/// The machine of a run, or 7 or 10.
fn run_of_machine(table: &[u32], registers: &[u32]) -> Result<Machine, u32> {
    if registers.len() < MAX_REGISTERS {
        return Err(7);
    }
    machine_of(table)
}

fn below_or_9(start: u32, limit: usize) -> Result<usize, u32> {
    below(start, limit).ok_or(9)
}

/// A list of starters as a set: it holds block 0, the start and no block from B up, or 11.
fn starter_set(list: &[u32], blocks: usize, start: usize) -> Result<BlockSet, u32> {
    let set: Option<BlockSet> = list.iter().map(|&word| below(word, blocks)).collect();
    set.filter(|set| set.contains(0) && set.contains(start)).ok_or(11)
}

fn graph_alone(table: &[u32], registers: &mut [u32], start: u32, budget: u32) -> Result<Run, u32> {
    let graph = run_of_graph(table, registers)?;
    if graph.reads_words() {
        return Err(12);
    }
    let start = below_or_9(start, graph.blocks.len())?;
    let used = &mut registers[..graph.registers];
    // Nothing reads a word, so it does not matter which blocks are starters.
    let starters = BlockSet::default();
    Ok(run::run_graph(&graph, used, start, budget, run::unread_words(), starters))
}

fn graph_with_words(
    table: &[u32],
    registers: &mut [u32],
    start: u32,
    budget: u32,
    words: &[u32],
    starters: &[u32],
) -> Result<Run, u32> {
    let graph = run_of_graph(table, registers)?;
    let start = below_or_9(start, graph.blocks.len())?;
    let starters = starter_set(starters, graph.blocks.len(), start)?;
    let used = &mut registers[..graph.registers];
    Ok(run::run_graph(&graph, used, start, budget, words.iter().copied(), starters))
}

fn machine_alone(
    table: &[u32],
    registers: &mut [u32],
    start: u32,
    budget: u32,
) -> Result<Run, u32> {
    let machine = run_of_machine(table, registers)?;
    if machine.reads_words() {
        return Err(12);
    }
    let start = below_or_9(start, machine.states.len())?;
    let used = &mut registers[..machine.registers];
    Ok(run::run_machine(&machine, used, start, budget, run::unread_words()))
}

fn machine_with_words(
    table: &[u32],
    registers: &mut [u32],
    start: u32,
    budget: u32,
    words: &[u32],
) -> Result<Run, u32> {
    let machine = run_of_machine(table, registers)?;
    let start = below_or_9(start, machine.states.len())?;
    let used = &mut registers[..machine.registers];
    Ok(run::run_machine(&machine, used, start, budget, words.iter().copied()))
}

pub fn run_graph(table: &[u32], registers: &mut [u32], start: u32, budget: u32) -> RunAnswer {
    RunAnswer::of(graph_alone(table, registers, start, budget))
}

pub fn run_machine(
    table: &[u32],
    registers: &mut [u32],
    start: u32,
    budget: u32,
) -> MachineAnswer<RunAnswer> {
    MachineAnswer::of(machine_alone(table, registers, start, budget), RunAnswer::of)
}

pub fn run_graph_with_words(
    table: &[u32],
    registers: &mut [u32],
    start: u32,
    budget: u32,
    words: &[u32],
    starters: &[u32],
) -> WordsRunAnswer {
    WordsRunAnswer::of(graph_with_words(table, registers, start, budget, words, starters))
}

pub fn run_machine_with_words(
    table: &[u32],
    registers: &mut [u32],
    start: u32,
    budget: u32,
    words: &[u32],
) -> MachineAnswer<WordsRunAnswer> {
    let run = machine_with_words(table, registers, start, budget, words);
    MachineAnswer::of(run, WordsRunAnswer::of)
}

pub fn compare_captures(registers: u32, first: &[u8], second: &[u8]) -> CaptureAnswer {
    match capture::compare(registers, first, second) {
        Ok(findings) => CaptureAnswer::compared(findings),
        Err(fault) => CaptureAnswer::refused(fault),
    }
}

/// Whether a state touches a register, by a look at its references.
fn asked(table: &[u32], state: u32, register: u32) -> Result<bool, u32> {
    let machine = machine_of(table)?;
    let state = &machine.states[below_or_9(state, machine.states.len())?];
    Ok(below(register, machine.registers).is_some_and(|register| state.touches(register)))
}

/// The first state that touches a register, by a look at the references of all.
fn searched(table: &[u32], register: u32) -> Result<u32, u32> {
    let machine = machine_of(table)?;
    let register = below(register, machine.registers);
    let first = register.and_then(|register| machine.first_touching(register));
    Ok(first.map_or(run::NONE, |state| state as u32))
}

pub fn touches(table: &[u32], state: u32, register: u32) -> TouchesAnswer {
    match asked(table, state, register) {
        Ok(touched) => TouchesAnswer { number: 0, touched },
        Err(number) => TouchesAnswer { number, touched: false },
    }
}

pub fn first_touching(table: &[u32], register: u32) -> FirstTouchingAnswer {
    match searched(table, register) {
        Ok(state) => FirstTouchingAnswer { number: 0, state },
        Err(number) => FirstTouchingAnswer { number, state: 0 },
    }
}

/// The ranges of the registers below R after a cycle from this state.
fn bounded(table: &[u32], lowest: &[u32], highest: &[u32], state: u32) -> Result<Vec<Range>, u32> {
    if lowest.len() < MAX_REGISTERS || highest.len() < MAX_REGISTERS {
        return Err(7);
    }
    let machine = machine_of(table)?;
    let state = &machine.states[below_or_9(state, machine.states.len())?];
    let ends = lowest.iter().zip(highest).take(machine.registers);
    let ranges: Vec<Range> = ends.map(|(&low, &high)| Range::of_words(low, high)).collect();
    match ranges.iter().all(|range| range.is_some()) {
        true => Ok(bounds::next_ranges(state, &ranges)),
        false => Err(13),
    }
}

/// Puts the bounds of each register after a cycle in place of those before it.
pub fn bounds(table: &[u32], lowest: &mut [u32], highest: &mut [u32], state: u32) -> u32 {
    let ranges = match bounded(table, lowest, highest, state) {
        Ok(ranges) => ranges,
        Err(number) => return number,
    };
    for (register, range) in ranges.into_iter().enumerate() {
        (lowest[register], highest[register]) = range.words();
    }
    0
}
