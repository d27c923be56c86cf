//! Blocks that a machine's run counts: by hand, in refusals, and against the graph's own runs.

mod common;

use common::blocks::{block_words, is_right, BlockWords, STATES_AT};
use common::*;
use reference::generate::block_cases::{long_chain, CHAIN, DIAMOND, READER, WIRES_OF_DIAMOND};
use reference::generate::examples::{P10, P11, P12, P7, P9, SEVEN};
use reference::generate::touch_cases::FOUR;
use reference::generate::word_cases::{RATES, WATCH};
use reference::generate::words;
use reference::graph::Graph;
use reference::graph_table;
use reference::machine_table::{decode, ARRIVALS_AT, MACHINE_WORDS, WIRES_AT};
use reference::operations::{
    bounds, first_touching, run_graph_with_words, run_machine, run_machine_with_words, synthesise,
    touches, MachineAnswer,
};
use reference::random::Random;

/// The references of the first blocks.
fn arrivals_of(text: &str, blocks: usize) -> Vec<u32> {
    machine_table_of(text)[ARRIVALS_AT..ARRIVALS_AT + blocks].to_vec()
}

#[test]
fn the_layout() {
    assert_eq!((ARRIVALS_AT, MACHINE_WORDS), (13_698, 13_762));
    assert_eq!(ARRIVALS_AT, WIRES_AT + 4 * 3_072);
}

/// The starter's `set`; `and` and code 18 of an ite; an `or` where edges join; a goto hands its own
/// arrival on.
#[test]
fn arrivals_by_hand() {
    assert_eq!(arrivals_of(P7, 7), [16, 16, 18, 21, 22, 19, 0]);
    assert_eq!(arrivals_of(P11, 2), [16, 0]);
    assert_eq!(arrivals_of(P12, 4), [16, 16, 0, 0]);
    assert_eq!(arrivals_of(CHAIN, 5), [16, 16, 16, 16, 0]);
    assert_eq!(arrivals_of(DIAMOND, 9), [16, 16, 18, 19, 22, 28, 28, 0, 0]);
    assert_eq!(arrivals_of(READER, 2), [16, 0]);
    assert_eq!(arrivals_of(&long_chain("halt"), 64), [16; 64]);
    let table = machine_table_of(DIAMOND);
    assert_eq!([131, 151].map(|at| table[at] as usize), WIRES_OF_DIAMOND);
}

/// The blocks of both runs after each budget from 0 up, on registers that begin so.
fn counts(text: &str, words: &[u32], start: u32, cycles: u32) -> Vec<u64> {
    let table = machine_table_of(text);
    let count = |budget| {
        let alone = run_machine(&table, &mut registers(words), start, budget);
        let list = [0; 99];
        let on_words = run_machine_with_words(&table, &mut registers(words), start, budget, &list);
        assert_eq!((alone.run.number, on_words.run.number), (0, 0));
        assert_eq!(alone.blocks, on_words.blocks);
        alone.blocks
    };
    (0..=cycles).map(count).collect()
}

/// Each cycle adds the blocks of its own way; behind the halt nothing is added.
#[test]
fn counts_by_hand() {
    assert_eq!(counts(P7, &[12, 18], 0, 6), [0, 1, 4, 7, 9, 9, 9]);
    assert_eq!(counts(P7, &[12, 18], 1, 4), [0, 3, 6, 8, 8]);
    assert_eq!(counts(P11, &[1], 0, 4), [0, 1, 2, 3, 4]);
    assert_eq!(counts(P12, &[1], 0, 2), [0, 2, 2]);
    assert_eq!(counts(CHAIN, &[1], 0, 2), [0, 4, 4]);
    assert_eq!(counts(DIAMOND, &[5, 7, 1], 0, 5), [0, 1, 4, 9, 9, 9]);
    assert_eq!(counts(DIAMOND, &[9, 7, 1], 1, 3), [0, 3, 8, 8]);
    // Blocks 0 and 2, then 3, then 4; and from 1 on 1, 3 and 4.
    assert_eq!(counts(P9, &[1, 2], 0, 4), [0, 2, 3, 4, 4]);
    assert_eq!(counts(P9, &[2, 2], 0, 4), [0, 1, 2, 3, 4]);
    assert_eq!(counts(P10, &[2, 1], 0, 4), [0, 1, 2, 4, 4]);
    assert_eq!(counts(&long_chain("halt"), &[], 0, 2), [0, 64, 64]);
    assert_eq!(counts(&long_chain("goto,0"), &[], 0, 3), [0, 64, 128, 192]);
}

/// More than 16 bits.
#[test]
fn long_counts() {
    let table = machine_table_of(&long_chain("goto,0"));
    let run = |budget| run_machine(&table, &mut [0; 16], 0, budget).blocks;
    assert_eq!([1_023, 1_024, 100_000].map(run), [65_472, 65_536, 6_400_000]);
}

/// Spent, halted and dry runs all answer what they counted.
#[test]
fn counts_at_every_end() {
    let table = machine_table_of(WATCH);
    let run = |budget, length: usize| {
        let answer = run_machine_with_words(&table, &mut [0; 16], 0, budget, &RATES[..length]);
        (answer.run.outcome, answer.run.count, answer.blocks)
    };
    // State 1 has blocks 1, 2, 3, 4 and 5 on -200; 1, 2, 4 and 5 on 400; 1, 2 and 4 on 300; 1 and 6 on 0.
    assert_eq!(run(u32::MAX, 6), (HALTED, 5, 1 + 5 + 4 + 3 + 2));
    assert_eq!(run(5, 5), (HALTED, 5, 15));
    assert_eq!(run(4, 6), (SPENT, 4, 13));
    assert_eq!(run(9, 4), (DRY, 4, 13));
    assert_eq!(run(9, 1), (DRY, 1, 1));
    assert_eq!(run(9, 0), (DRY, 0, 0));
    assert_eq!(run(0, 6), (SPENT, 0, 0));
}

/// A table with some words changed.
fn changed(text: &str, patches: &[(usize, u32)]) -> Vec<u32> {
    let mut table = machine_table_of(text);
    patches.iter().for_each(|&(at, word)| table[at] = word);
    table
}

/// The blocks of a run with words on a changed table.
fn blocks_of(text: &str, words: &[u32], list: &[u32], patches: &[(usize, u32)]) -> u64 {
    let table = changed(text, patches);
    let answer = run_machine_with_words(&table, &mut registers(words), 0, 99, list);
    assert_eq!(answer.run.number, 0, "{patches:?}");
    answer.blocks
}

const fn state(block: usize) -> usize {
    STATES_AT + block
}

const fn arrival(block: usize) -> usize {
    ARRIVALS_AT + block
}

/// A word that is neither 0 nor 1 counts one; only 0 does not count.
#[test]
fn arrivals_that_are_words() {
    let words = [0, 1, 2, 1 << 31, 0, u32::MAX, 65_536, 256];
    assert_eq!(blocks_of(READER, &[], &words, &[(arrival(0), 17)]), 6);
    assert_eq!(blocks_of(READER, &[], &words, &[]), 8);
    assert_eq!(blocks_of(READER, &[], &words, &[(arrival(0), 19)]), 0);
    assert_eq!(blocks_of(CHAIN, &[], &[0], &[(WIRES_AT + 1, 7)]), 4);
    assert_eq!(blocks_of(CHAIN, &[], &[0], &[(WIRES_AT + 1, 0)]), 0);
}

/// Every block is counted by itself, also where others have its reference, or it is from B up.
#[test]
fn other_blocks() {
    let (words, list) = ([5, 7, 1], [0; 9]);
    let blocks = |patches: &[(usize, u32)]| blocks_of(DIAMOND, &words, &list, patches);
    assert_eq!(blocks(&[]), 9);
    // In three cycles block 0's arrival is met once, and block 1's twice.
    assert_eq!(blocks(&[(state(7), 0), (arrival(7), 16)]), 10);
    assert_eq!(blocks(&[(state(63), 0), (arrival(63), 16)]), 10);
    assert_eq!(blocks(&[(state(8), 1), (arrival(8), 16)]), 11);
    assert_eq!(blocks(&[(state(8), 1), (arrival(8), 16), (state(63), 1), (arrival(63), 16)]), 13);
    assert_eq!(blocks(&[(state(0), 255), (arrival(0), 0)]), 8);
    assert_eq!(blocks(&[(state(1), 255), (arrival(1), 0)]), 7);
    assert_eq!(blocks(&[(state(0), 1)]), 10);
    assert_eq!(blocks(&[(state(1), 0)]), 8);
    let none: Vec<(usize, u32)> =
        (0..7).flat_map(|block| [(state(block), 255), (arrival(block), 0)]).collect();
    assert_eq!(blocks(&none), 0);
}

/// What each of the five operations that look at a machine's table answers first.
fn numbers(table: &[u32]) -> [u32; 5] {
    let mut words = [[3; 16]; 4];
    let [a, b, c, d] = &mut words;
    let numbers = [
        run_machine(table, a, 0, 9).run.number,
        run_machine_with_words(table, b, 0, 9, &[0; 9]).run.number,
        touches(table, 0, 0).number,
        first_touching(table, 0).number,
        bounds(table, c, d, 0),
    ];
    assert!(numbers == [0; 5] || words == [[3; 16]; 4], "a refusal changed the registers");
    numbers
}

fn number(patches: &[(usize, u32)]) -> u32 {
    let numbers = numbers(&changed(DIAMOND, patches));
    assert_eq!(numbers, [numbers[0]; 5], "{patches:?}");
    numbers[0]
}

/// A present block's reference is a wire of its state, from the first to the last.
#[test]
fn references_of_present_blocks() {
    for (block, wires) in
        [(0, WIRES_OF_DIAMOND[0]), (1, WIRES_OF_DIAMOND[1]), (6, WIRES_OF_DIAMOND[1])]
    {
        for reference in 16..16 + wires as u32 {
            assert_eq!(number(&[(arrival(block), reference)]), 0);
        }
        let past = 16 + wires as u32;
        for reference in (0..16).chain([past, past + 1, 3_087, 3_088, 1 << 31, u32::MAX]) {
            assert_eq!(number(&[(arrival(block), reference)]), 10, "{block} {reference}");
        }
    }
}

/// A state is below N or 255; an absent block's reference is 0.
#[test]
fn states_of_blocks() {
    for at in [0, 1, 6, 7, 8, 63] {
        let own = machine_table_of(DIAMOND)[state(at)];
        for other in (2..255).chain([256, 257, 511, 1 << 31, u32::MAX]) {
            assert_eq!(number(&[(state(at), other)]), 10, "{at} {other}");
            assert_eq!(number(&[(state(at), other), (arrival(at), 0)]), 10, "{at} {other}");
        }
        for other in [0, 1] {
            assert_eq!(number(&[(state(at), other), (arrival(at), 16)]), 0);
        }
        assert_eq!(number(&[(state(at), 255), (arrival(at), 0)]), 0);
        assert_eq!(number(&[(state(at), 255)]), if own == 255 { 0 } else { 10 });
        for reference in [1, 2, 15, 16, 255, u32::MAX] {
            assert_eq!(number(&[(state(at), 255), (arrival(at), reference)]), 10);
        }
    }
}

/// A state without wires has no reference for a block, and no state need have blocks.
#[test]
fn states_without_wires() {
    let third = [(0, 3), (130 + 40 + 19, 6)];
    let with = |more: &[(usize, u32)]| number(&[&third[..], more].concat());
    assert_eq!(with(&[]), 0);
    for reference in [0, 1, 15, 16, 17] {
        assert_eq!(with(&[(state(7), 2), (arrival(7), reference)]), 10);
    }
    assert_eq!(
        with(&[(171, 1), (170, 30), (WIRES_AT + 120, 1), (state(7), 2), (arrival(7), 16)]),
        0
    );
}

/// Refusals in their order, each with 0 blocks.
#[test]
fn refusals_count_nothing() {
    let table = machine_table_of(READER);
    let wrong = changed(READER, &[(arrival(0), 15)]);
    let alone = |table: &[u32], length, start| {
        let MachineAnswer { run, blocks } = run_machine(table, &mut [7; 16][..length], start, 3);
        (run, blocks)
    };
    assert_eq!(alone(&wrong[..MACHINE_WORDS - 1], 16, 1), (refused(7), 0));
    assert_eq!(alone(&wrong[..ARRIVALS_AT], 16, 1), (refused(7), 0));
    assert_eq!(alone(&wrong, 15, 1), (refused(7), 0));
    assert_eq!(alone(&wrong, 16, 1), (refused(10), 0));
    assert_eq!(alone(&table, 16, 1), (refused(12), 0));
    assert_eq!(alone(&machine_table_of(CHAIN), 16, 1), (refused(9), 0));
    let on_words = |table: &[u32], start| {
        let answer = run_machine_with_words(table, &mut [7; 16], start, 3, &[1; 3]);
        (answer.run, answer.blocks)
    };
    assert_eq!(on_words(&wrong[..MACHINE_WORDS - 1], 1), (refused_words(7), 0));
    assert_eq!(on_words(&wrong, 1), (refused_words(10), 0));
    assert_eq!(on_words(&table, 1), (refused_words(9), 0));
    assert_eq!(on_words(&table, 0).1, 3);
}

/// Words behind the table are not read, and a table of the layout before is short.
#[test]
fn lengths() {
    let table = machine_table_of(DIAMOND);
    let longer = [&table[..], &[u32::MAX; 9]].concat();
    assert_eq!(numbers(&longer), [0; 5]);
    for length in [13_634, 13_698, 13_730, 13_761] {
        assert_eq!(numbers(&table[..length]), [7; 5]);
    }
    let zeros = [&table[..ARRIVALS_AT], &[0; 64][..]].concat();
    assert_eq!(numbers(&zeros), [10; 5]);
}

/// Of every synthesised table the words of blocks are right: a present block's wire is nonzero
/// exactly in the cycles that run it, and absent blocks have 0.
#[test]
fn synthesised_words_of_blocks() {
    for graph in many_graphs(61, 800) {
        let mut table = vec![7; MACHINE_WORDS];
        assert_eq!(synthesise(&graph_table::encode(&graph), &mut table), 0);
        assert!(block_words(&table).all(|words| is_right(&table, words)));
        let machine = decode(&table).expect("a machine");
        for BlockWords { block, state, reference } in block_words(&table) {
            let own = machine.states.get(state as usize);
            let wire = own.and_then(|state| state.arrivals.get(&block));
            assert_eq!(wire.map_or(0, |&wire| wire as u32 + 16), reference);
        }
        let blocks: usize = machine.states.iter().map(|state| state.arrivals.len()).sum();
        assert_eq!(blocks, block_words(&table).filter(|words| words.state != 255).count());
    }
}

/// The blocks of a state whose wires are nonzero, each by itself.
#[test]
fn blocks_of_a_cycle() {
    let machine = decode(&machine_table_of(DIAMOND)).expect("a machine");
    let second = &machine.states[1];
    let mut wires = vec![0; second.wires.len()];
    assert_eq!(second.blocks_run(&wires), 0);
    wires[0] = 5;
    assert_eq!(second.blocks_run(&wires), 1);
    wires[12] = u32::MAX;
    assert_eq!(second.blocks_run(&wires), 3);
    wires[1] = 1;
    assert_eq!(second.blocks_run(&wires), 3);
}

/// From a starter, the machine's blocks on k words are those that the graph runs before it goes dry
/// on the same words, or halts.
fn count_as_the_graph(graph: &Graph, random: &mut Random, lengths: &[usize]) -> [usize; 3] {
    let (table, mut machine) = (graph_table::encode(graph), vec![0; MACHINE_WORDS]);
    assert_eq!(synthesise(&table, &mut machine), 0);
    let starters = machine[2..2 + machine[0] as usize].to_vec();
    let mut kinds = [0; 3];
    for (state, &starter) in starters.iter().enumerate() {
        let begin = words::registers(random, 16);
        let list = words::registers(random, 64);
        for &k in lengths {
            let (mut x, mut y, words) = (begin.clone(), begin.clone(), &list[..k]);
            let ran = run_graph_with_words(&table, &mut x, starter, u32::MAX, words, &starters);
            let answer = run_machine_with_words(&machine, &mut y, state as u32, k as u32, &list);
            assert_eq!((ran.number, answer.run.number), (0, 0));
            assert_eq!(u64::from(ran.count), answer.blocks);
            assert_eq!(x, y);
            let count = u64::from(answer.run.count);
            assert!(answer.blocks >= count);
            kinds[0] += usize::from(answer.blocks > count);
            kinds[1] += usize::from(answer.blocks == count);
            kinds[2] += usize::from(answer.run.outcome == HALTED);
        }
    }
    kinds
}

#[test]
fn blocks_are_those_of_the_graph() {
    let mut random = Random::new(62);
    let mut all = [0; 3];
    let graphs = many_graphs(63, 500).into_iter().chain(many_reading_graphs(64, 500));
    for graph in graphs.chain(many_sum_graphs(65, 300)) {
        let kinds = count_as_the_graph(&graph, &mut random, &[0, 1, 2, 3, 5, 8, 21, 64]);
        (0..3).for_each(|kind| all[kind] += kinds[kind]);
    }
    println!("{all:?}");
    assert!(all.iter().all(|&runs| runs > 2_000), "{all:?}");
}

#[test]
fn blocks_of_the_examples_are_those_of_the_graph() {
    let mut random = Random::new(66);
    let chain = long_chain("goto,0");
    for text in [P7, P9, P10, P11, P12, SEVEN, FOUR, WATCH, CHAIN, DIAMOND, READER, &chain] {
        for _ in 0..20 {
            count_as_the_graph(&graph_of(text), &mut random, &[0, 1, 2, 3, 4, 5, 10, 64]);
        }
    }
}

/// On every graph of at most three blocks without instructions, and on every k up to 4.
#[test]
fn blocks_of_small_graphs() {
    let mut random = Random::new(67);
    for graph in every_small_graph().filter(|graph| graph.blocks.len() < 4) {
        count_as_the_graph(&graph, &mut random, &[0, 1, 2, 3, 4]);
    }
}
