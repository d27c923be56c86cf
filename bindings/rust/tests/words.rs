//! Runs with words, R-1 of paper 02, by the safe types.

use gutkavu::{Graph, MachineRunWithWords, Outcome, Refusal, RunWithWords};
use Outcome::{Dry, Halted, Spent};

/// Adds up its words, and halts on a word of 0.
const SUM: &str = "graph,3,3\nblock,0\nin,1\nite,ne,1,2,1,2\nblock,1\nadd,0,0,1\ngoto,0\n\
block,2\nhalt\n";

const TURN: &str = include_str!("../../../examples/turn.txt");

fn graph(text: &str) -> Graph {
    text.parse().expect("a graph")
}

fn run(outcome: Outcome, count: u32, next: Option<u32>) -> Result<RunWithWords, Refusal> {
    Ok(RunWithWords { outcome, count, next, flag: false })
}

/// What a run of the graph answers with its machine's starters, and its first register.
fn by_graph(text: &str, budget: u32, words: &[u32]) -> (Result<RunWithWords, Refusal>, u32) {
    let (graph, mut registers) = (graph(text), [0; 16]);
    let machine = graph.synthesise();
    let answer = graph.run_with_words(&mut registers, 0, budget, words, machine.starters());
    (answer, registers[0])
}

/// What a run of the machine answers, but for the blocks, and its first register.
fn by_machine(text: &str, budget: u32, words: &[u32]) -> (Result<RunWithWords, Refusal>, u32) {
    let mut registers = [0; 16];
    let machine = graph(text).synthesise();
    let answer = machine.run_with_words(&mut registers, 0, budget, words);
    let without_blocks = |run| {
        let MachineRunWithWords { outcome, count, next, flag, .. } = run;
        RunWithWords { outcome, count, next, flag }
    };
    (answer.map(without_blocks), registers[0])
}

#[test]
fn a_graph_with_in_is_read_and_written() {
    let graph = graph(SUM);
    assert_eq!(graph.words()[3..7], [20, 1, 0, 0]);
    assert_eq!(graph.write(), SUM);
    assert_eq!(Graph::from_words(graph.words()), Ok(graph.clone()));
    for line in ["in", "in,", "in,01", "in,0,0", "in,256", "in,-1", "in, 0"] {
        let refused = Graph::read(SUM.replacen("in,1", line, 1).as_bytes()).expect_err(line);
        assert_eq!((refused.number(), refused.line()), (2, 3));
    }
    let refused = Graph::read(SUM.replacen("in,1", "in,3", 1).as_bytes()).expect_err("r3");
    assert_eq!((refused.number(), refused.line()), (4, 3));
}

#[test]
fn words_end_in_one_of_three_ways() {
    let words = [3, 4, 5, 0];
    assert_eq!(by_graph(SUM, 1_000, &words), (run(Halted, 8, None), 12));
    assert_eq!(by_machine(SUM, 1_000, &words), (run(Halted, 4, None), 12));
    assert_eq!(by_graph(SUM, 1_000, &words[..3]), (run(Dry, 6, Some(0)), 12));
    assert_eq!(by_machine(SUM, 1_000, &words[..3]), (run(Dry, 3, Some(0)), 12));
    assert_eq!(by_graph(SUM, 5, &words), (run(Spent, 5, Some(1)), 7));
    assert_eq!(by_machine(SUM, 2, &words), (run(Spent, 2, Some(0)), 7));
}

#[test]
fn spent_comes_before_dry_and_halted_before_spent() {
    assert_eq!(by_graph(SUM, 2, &[3]), (run(Spent, 2, Some(0)), 3));
    assert_eq!(by_graph(SUM, 3, &[3]), (run(Dry, 2, Some(0)), 3));
    assert_eq!(by_machine(SUM, 1, &[3]), (run(Spent, 1, Some(0)), 3));
    assert_eq!(by_machine(SUM, 2, &[3]), (run(Dry, 1, Some(0)), 3));
    assert_eq!(by_graph(SUM, 2, &[0]), (run(Halted, 2, None), 0));
    assert_eq!(by_machine(SUM, 1, &[0]), (run(Halted, 1, None), 0));
    for by in [by_graph, by_machine] {
        assert_eq!(by(SUM, 0, &[]), (run(Spent, 0, Some(0)), 0));
        assert_eq!(by(SUM, 1, &[]), (run(Dry, 0, Some(0)), 0));
    }
}

/// A word is used up at each arrival, whether or not it is read.
#[test]
fn a_block_that_goes_to_itself_arrives_again() {
    let text = "graph,1,1\nblock,0\ngoto,0\n";
    for by in [by_graph, by_machine] {
        assert_eq!(by(text, 1_000, &[9; 5]), (run(Dry, 5, Some(0)), 0));
    }
}

#[test]
fn starters_are_a_set_of_blocks_with_block_0_and_the_start() {
    let (graph, words) = (graph(SUM), [3, 4, 0, 0, 0]);
    let with = |start, starters: &[u32]| {
        let mut registers = [0; 16];
        let answer = graph.run_with_words(&mut registers, start, 1_000, &words, starters);
        (answer, registers[0])
    };
    assert_eq!(with(0, &[0]), (run(Halted, 6, None), 7));
    // Block 1 as a starter uses up a word of its own.
    assert_eq!(with(0, &[0, 1]), (run(Halted, 4, None), 3));
    assert_eq!(with(0, &[1, 0, 1]), with(0, &[0, 1]));
    assert_eq!(with(1, &[0, 1]).0, run(Halted, 5, None));
    for (start, starters) in [(0, &[][..]), (0, &[1]), (1, &[0]), (0, &[0, 3]), (0, &[0, u32::MAX])]
    {
        assert_eq!(with(start, starters), (Err(Refusal::NoStarters), 0));
    }
    assert_eq!(with(3, &[1]), (Err(Refusal::NoStart), 0));
}

#[test]
fn a_run_without_words_refuses_code_20() {
    let graph = graph(SUM);
    let (machine, mut registers) = (graph.synthesise(), [5; 16]);
    assert_eq!(graph.run(&mut registers, 9, 0), Err(Refusal::WordsNeeded));
    assert_eq!(machine.run(&mut registers, 9, 0), Err(Refusal::WordsNeeded));
    let answer = machine.run_with_words(&mut registers, 9, 0, &[]);
    assert_eq!((answer, registers), (Err(Refusal::NoStart), [5; 16]));
}

/// An unreachable `in` is in the graph's table alone.
#[test]
fn an_unreachable_in_is_not_in_the_machine() {
    let graph = graph("graph,2,1\nblock,0\nhalt\nblock,1\nin,0\nhalt\n");
    assert_eq!(graph.run(&mut [0; 16], 0, 1), Err(Refusal::WordsNeeded));
    assert!(graph.synthesise().run(&mut [0; 16], 0, 1).expect("a run").halted);
}

#[test]
fn graph_and_machine_agree_on_the_rate_of_turn() {
    let graph = graph(TURN);
    let machine = graph.synthesise();
    assert_eq!(machine.starters(), [0, 1]);
    let words = [10, 65_346, 410, 10, 65_146, 160];
    for length in 0..=words.len() {
        let (mut registers, mut others) = ([7; 16], [7; 16]);
        let words = &words[..length];
        let answer = graph.run_with_words(&mut registers, 0, 1_000, words, machine.starters());
        let next = Some(u32::from(length > 0));
        let RunWithWords { outcome, count, next: block, flag } = answer.expect("a run");
        assert_eq!((outcome, block, flag), (Dry, next, false));
        let answer = machine.run_with_words(&mut others, 0, 1_000, words);
        let (cycles, blocks) = (length as u32, count.into());
        let dry = MachineRunWithWords { outcome: Dry, count: cycles, next, flag: false, blocks };
        assert_eq!((answer, others), (Ok(dry), registers));
    }
}
