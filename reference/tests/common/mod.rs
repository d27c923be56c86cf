//! What several test files share: tables of texts, random graphs, all small ones.

#![allow(dead_code)]

pub mod blocks;
pub mod bounds;
pub mod flags;
pub mod recordings;
pub mod shifted_runs;
pub mod shifts;
pub mod touch;
pub mod traces;

use reference::case::Case;
use reference::generate::{cases, graphs};
use reference::graph::{Block, Comparison, Ending, Graph};
use reference::graph_table::GRAPH_WORDS;
use reference::machine_table::MACHINE_WORDS;
use reference::operations::{
    self, read, run_graph, run_graph_with_words, synthesise, ReadAnswer, RunAnswer, WordsRunAnswer,
};
use reference::parse::parse;
use reference::random::Random;

/// The recorded cases, by the seed and count of `stored.txt`.
pub fn stored_cases() -> Vec<Case> {
    let numbers = include_str!("../../stored.txt").split_whitespace();
    let numbers: Vec<usize> = numbers.map(|word| word.parse().expect("a number")).collect();
    cases(numbers[0] as u64, numbers[1])
}

/// At least so many of a list are of a kind.
pub fn at_least<T>(list: &[T], least: usize, kind: &str, holds: impl Fn(&T) -> bool) {
    let found = list.iter().filter(|one| holds(one)).count();
    println!("{kind}: {found}");
    assert!(found >= least, "{kind}: {found}");
}

pub fn refusal(text: &str) -> (u32, u32) {
    let mut table = vec![9; GRAPH_WORDS];
    let ReadAnswer { number, line } = read(text.as_bytes(), &mut table);
    assert!(number == 0 || table == vec![9; GRAPH_WORDS], "a refusal changed the table");
    (number, line)
}

pub fn graph_of(text: &str) -> Graph {
    parse(text.as_bytes()).expect("a valid text")
}

pub fn graph_table_of(text: &str) -> Vec<u32> {
    let mut table = vec![0; GRAPH_WORDS];
    assert_eq!(read(text.as_bytes(), &mut table), ReadAnswer { number: 0, line: 0 });
    table
}

pub fn machine_table_of(text: &str) -> Vec<u32> {
    let mut machine = vec![0; MACHINE_WORDS];
    assert_eq!(synthesise(&graph_table_of(text), &mut machine), 0);
    machine
}

/// Starters and block states as the machine table gives them.
pub fn starters_of(text: &str) -> Vec<u32> {
    let machine = machine_table_of(text);
    machine[2..2 + machine[0] as usize].to_vec()
}

pub fn block_states_of(text: &str, blocks: usize) -> Vec<u32> {
    machine_table_of(text)[66..66 + blocks].to_vec()
}

pub fn registers(words: &[u32]) -> Vec<u32> {
    let mut registers = vec![0; 16];
    registers[..words.len()].copy_from_slice(words);
    registers
}

/// A machine's run without its count of blocks.
pub fn run_machine(table: &[u32], registers: &mut [u32], start: u32, budget: u32) -> RunAnswer {
    operations::run_machine(table, registers, start, budget).run
}

pub fn run_machine_with_words(
    table: &[u32],
    registers: &mut [u32],
    start: u32,
    budget: u32,
    words: &[u32],
) -> WordsRunAnswer {
    operations::run_machine_with_words(table, registers, start, budget, words).run
}

pub fn on_graph(text: &str, words: &[u32], budget: u32) -> (RunAnswer, Vec<u32>) {
    let mut registers = registers(words);
    let answer = run_graph(&graph_table_of(text), &mut registers, 0, budget);
    (answer, registers)
}

pub fn on_machine(text: &str, words: &[u32], budget: u32) -> (RunAnswer, Vec<u32>) {
    let mut registers = registers(words);
    let answer = run_machine(&machine_table_of(text), &mut registers, 0, budget);
    (answer, registers)
}

/// A run with words, on registers of 0 and with the machine's starters.
pub fn graph_on_words(text: &str, start: u32, budget: u32, words: &[u32]) -> Ran {
    let (table, starters) = (graph_table_of(text), starters_of(text));
    let mut registers = registers(&[]);
    let answer = run_graph_with_words(&table, &mut registers, start, budget, words, &starters);
    (answer, registers)
}

pub fn machine_on_words(text: &str, start: u32, budget: u32, words: &[u32]) -> Ran {
    let (table, mut registers) = (machine_table_of(text), registers(&[]));
    (run_machine_with_words(&table, &mut registers, start, budget, words), registers)
}

/// What a run with words answered, and its registers after.
pub type Ran = (WordsRunAnswer, Vec<u32>);

pub const SPENT: u32 = 0;
pub const HALTED: u32 = 1;
pub const DRY: u32 = 2;

/// Answers with a clear flag.
pub fn ran(outcome: u32, count: u32, next: u32) -> WordsRunAnswer {
    WordsRunAnswer { number: 0, outcome, count, next, flag: false }
}

pub fn refused_words(number: u32) -> WordsRunAnswer {
    WordsRunAnswer { number, outcome: 0, count: 0, next: 0, flag: false }
}

pub fn halted(count: u32) -> RunAnswer {
    RunAnswer { number: 0, halted: true, count, next: 255, flag: false }
}

pub fn spent(count: u32, next: u32) -> RunAnswer {
    RunAnswer { number: 0, halted: false, count, next, flag: false }
}

pub fn refused(number: u32) -> RunAnswer {
    RunAnswer { number, halted: false, count: 0, next: 0, flag: false }
}

/// Random valid graphs of all shapes, from one seed.
pub fn many_graphs(seed: u64, count: usize) -> Vec<Graph> {
    let mut random = Random::new(seed);
    (0..count).map(|_| graphs::graph(&mut random)).collect()
}

/// Random valid graphs that all read words.
pub fn many_reading_graphs(seed: u64, count: usize) -> Vec<Graph> {
    let mut random = Random::new(seed);
    let mut make = |_| {
        let size = graphs::size(&mut random);
        let graph = graphs::graph_of(&mut random, size);
        graphs::with_inputs(&mut random, graph)
    };
    (0..count).map(&mut make).collect()
}

/// Random valid graphs that read none.
pub fn many_silent_graphs(seed: u64, count: usize) -> Vec<Graph> {
    let mut random = Random::new(seed);
    let mut make = |_| {
        let size = graphs::size(&mut random);
        graphs::graph_of(&mut random, size)
    };
    (0..count).map(&mut make).collect()
}

/// Random valid graphs in which many sums go over.
pub fn many_sum_graphs(seed: u64, count: usize) -> Vec<Graph> {
    let mut random = Random::new(seed);
    (0..count).map(|_| graphs::sum_graph(&mut random)).collect()
}

/// Random valid graphs with many shifts.
pub fn many_shift_graphs(seed: u64, count: usize) -> Vec<Graph> {
    let mut random = Random::new(seed);
    (0..count).map(|_| graphs::shift_graph(&mut random)).collect()
}

/// All endings of a block among so many: halt, goto, ite.
fn endings(blocks: usize) -> Vec<Ending> {
    let comparison = Comparison::Eq;
    let ite = |t| (0..blocks).map(move |f| Ending::Ite { comparison, a: 0, b: 0, t, f });
    let gotos = (0..blocks).map(Ending::Goto);
    gotos.chain((0..blocks).flat_map(ite)).chain([Ending::Halt]).collect()
}

/// Every graph of so many blocks, without instructions.
fn every_graph_of(blocks: usize) -> impl Iterator<Item = Graph> {
    let endings = endings(blocks);
    (0..endings.len().pow(blocks as u32)).map(move |choice| {
        let digit = |n: usize| choice / endings.len().pow(n as u32) % endings.len();
        let block = |n| Block { instructions: Vec::new(), ending: endings[digit(n)] };
        Graph { registers: 1, blocks: (0..blocks).map(block).collect() }
    })
}

/// Every graph of at most four blocks, without instructions.
pub fn every_small_graph() -> impl Iterator<Item = Graph> {
    (1..=4).flat_map(every_graph_of)
}
