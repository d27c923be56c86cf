//! Runs with words (paper 02, R-1), clause by clause on graphs made by hand.

mod common;

use common::*;
use reference::generate::examples::{P11, P12, P7, P9};
use reference::generate::word_cases::{LOST_INPUT, RATES, SUM, WATCH};
use reference::listing::listing;
use reference::machine_table::{MACHINE_WORDS, RECORDS_AT, WIRES_AT};
use reference::operations::{run_graph, run_graph_with_words, WordsRunAnswer};

/// Both blocks read a word; block 1 is an arrival where the list of starters says so.
const TWO_READS: &str =
    "graph,2,3\nblock,0\nin,0\ngoto,1\nblock,1\nin,1\nadd,2,2,1\nite,ne,0,1,1,0\n";

#[test]
fn in_is_code_20_in_both_tables() {
    let graph = graph_table_of(SUM);
    assert_eq!(graph[2..7], [2, 20, 1, 0, 0]);
    let machine = machine_table_of(SUM);
    assert_eq!(machine[RECORDS_AT..RECORDS_AT + 5], [0, 4, 19, 18, 17]);
    let wires = [[1, 1, 0, 0], [20, 0, 0, 0], [3, 0, 17, 16], [1, 0, 0, 0]];
    assert_eq!(machine[WIRES_AT..WIRES_AT + 16], *wires.as_flattened());
    assert_eq!(listing(SUM.as_bytes()), "states,1,4\n0,0,1,4\n");
}

/// Every `in` has a wire of its own, where its instruction's wire stands.
#[test]
fn each_in_is_one_wire() {
    let text = "graph,1,2\nblock,0\nin,1\nset,0,5\nin,1\nin,0\nhalt\n";
    let machine = machine_table_of(text);
    let wires =
        [[1, 1, 0, 0], [20, 0, 0, 0], [1, 5, 0, 0], [20, 0, 0, 0], [20, 0, 0, 0], [1, 255, 0, 0]];
    assert_eq!(machine[WIRES_AT..WIRES_AT + 24], *wires.as_flattened());
    assert_eq!(machine[RECORDS_AT..RECORDS_AT + 5], [0, 6, 21, 20, 19]);
    let expected = (ran(HALTED, 1, 255), registers(&[8, 8]));
    assert_eq!(graph_on_words(text, 0, 1, &[8]), expected);
    assert_eq!(machine_on_words(text, 0, 1, &[8]), expected);
}

#[test]
fn arrival_k_uses_word_k() {
    for k in 0..=4 {
        let sum: u32 = [1, 20, 300, 4_000][..k].iter().sum();
        let last = [0, 1, 20, 300, 4_000][k];
        let expected = (ran(SPENT, k as u32, 0), registers(&[sum, last]));
        assert_eq!(graph_on_words(SUM, 0, k as u32, &[1, 20, 300, 4_000]), expected);
        assert_eq!(machine_on_words(SUM, 0, k as u32, &[1, 20, 300, 4_000]), expected);
    }
}

/// In P11's one block each step is to a starter, which is the block just run.
#[test]
fn a_self_loop_arrives_each_time() {
    for length in 0..5 {
        let words = &[7; 5][..length];
        for text in [P11, SUM] {
            let expected = ran(DRY, length as u32, 0);
            assert_eq!(graph_on_words(text, 0, 9, words).0, expected);
            assert_eq!(machine_on_words(text, 0, 9, words).0, expected);
        }
    }
}

#[test]
fn spent_comes_before_dry() {
    for run in [graph_on_words, machine_on_words] {
        assert_eq!(run(SUM, 0, 0, &[]).0, ran(SPENT, 0, 0));
        assert_eq!(run(SUM, 0, 1, &[]).0, ran(DRY, 0, 0));
        assert_eq!(run(SUM, 0, 2, &[5, 6]).0, ran(SPENT, 2, 0));
        assert_eq!(run(SUM, 0, 3, &[5, 6]), (ran(DRY, 2, 0), registers(&[11, 6])));
        assert_eq!(run(SUM, 0, u32::MAX, &[5, 6]), (ran(DRY, 2, 0), registers(&[11, 6])));
        assert_eq!(run(P7, 1, 0, &[]).0, ran(SPENT, 0, 1));
        assert_eq!(run(P7, 1, 1, &[]).0, ran(DRY, 0, 1));
    }
}

#[test]
fn halted_wins_on_the_last_unit() {
    let text = "graph,1,1\nblock,0\nin,0\nhalt\n";
    for run in [graph_on_words, machine_on_words] {
        assert_eq!(run(text, 0, 1, &[6]), (ran(HALTED, 1, 255), registers(&[6])));
        assert_eq!(run(text, 0, 2, &[6, 7]), (ran(HALTED, 1, 255), registers(&[6])));
        assert_eq!(run(text, 0, 0, &[6]), (ran(SPENT, 0, 0), registers(&[])));
        assert_eq!(run(text, 0, 1, &[]), (ran(DRY, 0, 0), registers(&[])));
    }
}

/// A word must be there for every arrival, though nothing reads it; a halt is no arrival.
#[test]
fn dry_does_not_ask_whether_the_word_is_read() {
    let table = (graph_table_of(P7), machine_table_of(P7));
    let on_graph = |words: &[u32]| {
        run_graph_with_words(&table.0, &mut registers(&[12, 18]), 0, 99, words, &[0, 1])
    };
    let on_machine =
        |words: &[u32]| run_machine_with_words(&table.1, &mut registers(&[12, 18]), 0, 99, words);
    // Arrivals 0 to 3 are after 0, 1, 4 and 7 blocks.
    for (length, blocks) in [(0, 0), (1, 1), (2, 4), (3, 7)] {
        let next = u32::from(length > 0);
        assert_eq!(on_graph(&[9; 4][..length]), ran(DRY, blocks, next));
        assert_eq!(on_machine(&[9; 4][..length]), ran(DRY, length as u32, next));
    }
    for length in [4, 5, 64] {
        assert_eq!(on_graph(&[9; 64][..length]), ran(HALTED, 9, 255));
        assert_eq!(on_machine(&[9; 64][..length]), ran(HALTED, 4, 255));
    }
    assert_eq!(graph_on_words(P12, 0, 9, &[1]).0, ran(HALTED, 2, 255));
}

/// Between two arrivals the graph keeps its word, and does not go dry.
#[test]
fn all_in_of_one_arrival_give_one_word() {
    assert_eq!(starters_of(TWO_READS), [0, 1]);
    let run = |budget: u32, words: &[u32], starters: &[u32]| {
        let mut registers = registers(&[]);
        let table = graph_table_of(TWO_READS);
        let answer = run_graph_with_words(&table, &mut registers, 0, budget, words, starters);
        (answer, registers)
    };
    // Only block 0 is an arrival: both registers get its word.
    assert_eq!(run(2, &[5], &[0]), (ran(SPENT, 2, 0), registers(&[5, 5, 5])));
    assert_eq!(run(9, &[5], &[0]), (ran(DRY, 2, 0), registers(&[5, 5, 5])));
    assert_eq!(run(9, &[5, 6], &[0]), (ran(DRY, 4, 0), registers(&[6, 6, 11])));
    // Block 1 is one too: it goes to itself until it is given what block 0 was given.
    assert_eq!(run(9, &[5], &[0, 1]), (ran(DRY, 1, 1), registers(&[5])));
    assert_eq!(run(9, &[5, 6, 5], &[0, 1]), (ran(DRY, 3, 0), registers(&[5, 5, 11])));
    let machine = machine_on_words(TWO_READS, 0, 9, &[5, 6, 5]);
    assert_eq!(machine, (ran(DRY, 3, 0), registers(&[5, 5, 11])));
}

/// The worked example of a rate of turn: the largest, until it is 0.
#[test]
fn the_largest_rate() {
    let at_end = registers(&[0, 0, 0, 400, 0, 400]);
    let after = graph_on_words(WATCH, 0, u32::MAX, &RATES);
    assert_eq!((after.0.outcome, after.0.next, &after.1), (HALTED, 255, &at_end));
    assert_eq!(machine_on_words(WATCH, 0, u32::MAX, &RATES), (ran(HALTED, 5, 255), at_end));
    let early = registers(&[400, 400, 0, 400, 0, 400]);
    let after = graph_on_words(WATCH, 0, u32::MAX, &RATES[..3]);
    assert_eq!((after.0.outcome, after.0.next, &after.1), (DRY, 1, &early));
    assert_eq!(machine_on_words(WATCH, 0, u32::MAX, &RATES[..3]), (ran(DRY, 3, 1), early));
}

fn p9_from_3(starters: &[u32]) -> WordsRunAnswer {
    run_graph_with_words(&graph_table_of(P9), &mut registers(&[]), 3, 9, &[7], starters)
}

/// Order and repeats of a starter list do not matter.
#[test]
fn a_starter_list_is_a_set() {
    let lists: [&[u32]; 4] = [&[0, 3, 4], &[4, 3, 0], &[3, 0, 3, 4, 4, 0], &[0, 1, 2, 3, 4]];
    for list in lists {
        assert_eq!(p9_from_3(list), ran(DRY, 1, 4), "{list:?}");
    }
    // Without block 4 the second block needs no word.
    assert_eq!(p9_from_3(&[0, 3]), ran(HALTED, 2, 255));
    let long: Vec<u32> = (0..1_000).map(|index| index % 4).collect();
    assert_eq!(p9_from_3(&long), ran(HALTED, 2, 255));
}

#[test]
fn each_fault_of_a_starter_list_is_11() {
    let lists: [&[u32]; 8] = [
        &[],
        &[3],
        &[1, 3, 4],
        &[0, 1, 4],
        &[0, 3, 5],
        &[64, 0, 3],
        &[0, 3, 255],
        &[0, u32::MAX, 3],
    ];
    for list in lists {
        assert_eq!(p9_from_3(list), refused_words(11), "{list:?}");
    }
}

/// 7, 6, 9, 11 with words; 7, 6, 12, 9 without.
#[test]
fn orders_of_refusals_of_graphs() {
    let table = graph_table_of(SUM);
    let short = &table[..table.len() - 1];
    let mut wrong = table.clone();
    wrong[6] = 1;
    let on = |table: &[u32], length: usize, start: u32, starters: &[u32]| {
        let mut words = vec![3; length];
        let answer = run_graph_with_words(table, &mut words, start, 1, &[], starters);
        assert_eq!(words, vec![3; length]);
        answer
    };
    assert_eq!(on(short, 16, 9, &[9]), refused_words(7));
    assert_eq!(on(&wrong, 15, 9, &[9]), refused_words(7));
    assert_eq!(on(&wrong, 16, 9, &[9]), refused_words(6));
    assert_eq!(on(&table, 16, 1, &[9]), refused_words(9));
    assert_eq!(on(&table, 16, 0, &[9]), refused_words(11));
    assert_eq!(on(&table, 16, 0, &[0]), ran(DRY, 0, 0));
    assert_eq!(run_graph(short, &mut [3; 16], 9, 1), refused(7));
    assert_eq!(run_graph(&table, &mut [3; 15], 9, 1), refused(7));
    assert_eq!(run_graph(&wrong, &mut [3; 16], 9, 1), refused(6));
    assert_eq!(run_graph(&table, &mut [3; 16], 9, 1), refused(12));
    assert_eq!(run_graph(&table, &mut [3; 16], 0, 0), refused(12));
    assert_eq!(run_graph(&graph_table_of(P11), &mut [3; 16], 9, 1), refused(9));
}

/// 7, 10, 9 with words; 7, 10, 12, 9 without.
#[test]
fn orders_of_refusals_of_machines() {
    let table = machine_table_of(SUM);
    let short = &table[..MACHINE_WORDS - 1];
    let mut wrong = table.clone();
    wrong[WIRES_AT] = 21;
    let on = |table: &[u32], length: usize, start: u32| {
        let mut words = vec![3; length];
        let answer = run_machine_with_words(table, &mut words, start, 1, &[]);
        assert_eq!(words, vec![3; length]);
        answer
    };
    assert_eq!(on(short, 16, 9), refused_words(7));
    assert_eq!(on(&wrong, 15, 9), refused_words(7));
    assert_eq!(on(&wrong, 16, 9), refused_words(10));
    assert_eq!(on(&table, 16, 1), refused_words(9));
    assert_eq!(on(&table, 16, 0), ran(DRY, 0, 0));
    assert_eq!(run_machine(short, &mut [3; 16], 9, 1), refused(7));
    assert_eq!(run_machine(&table, &mut [3; 15], 9, 1), refused(7));
    assert_eq!(run_machine(&wrong, &mut [3; 16], 9, 1), refused(10));
    assert_eq!(run_machine(&table, &mut [3; 16], 9, 1), refused(12));
    assert_eq!(run_machine(&table, &mut [3; 16], 0, 0), refused(12));
    assert_eq!(run_machine(&machine_table_of(P11), &mut [3; 16], 9, 1), refused(9));
}

/// 12 looks at every block of a graph, and the machine of this one has no `in`.
#[test]
fn an_unreachable_in_is_12_for_the_graph_alone() {
    assert_eq!(on_graph(LOST_INPUT, &[4], 9).0, refused(12));
    assert_eq!(on_machine(LOST_INPUT, &[4], 9).0, halted(1));
    assert_eq!(machine_table_of(LOST_INPUT), machine_table_of(P12));
    assert_eq!(graph_on_words(LOST_INPUT, 0, 9, &[1]).0, ran(HALTED, 2, 255));
    // A run with words may start there, where the list says so.
    let mut words = registers(&[4]);
    let table = graph_table_of(LOST_INPUT);
    let answer = run_graph_with_words(&table, &mut words, 2, 9, &[8], &[0, 2]);
    assert_eq!((answer, words), (ran(HALTED, 2, 255), registers(&[8])));
}

/// Registers from R up and words past 16 stay.
#[test]
fn other_registers_stay() {
    let before: Vec<u32> = (100..120).collect();
    let mut after = before.clone();
    (after[0], after[1]) = (100 + 5 + 6, 6);
    let (mut x, mut y) = (before.clone(), before);
    let on_graph = run_graph_with_words(&graph_table_of(SUM), &mut x, 0, 9, &[5, 6], &[0]);
    let on_machine = run_machine_with_words(&machine_table_of(SUM), &mut y, 0, 9, &[5, 6]);
    assert_eq!((on_graph, x), (ran(DRY, 2, 0), after.clone()));
    assert_eq!((on_machine, y), (ran(DRY, 2, 0), after));
}
