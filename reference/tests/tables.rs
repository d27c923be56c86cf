//! Both tables: what writing and reading undo, and what is refused.

mod common;

use common::*;
use reference::generate::examples::P7;
use reference::generate::fixed::largest_graphs;
use reference::generate::graphs::{graph_of as generate_graph, Size};
use reference::graph::Graph;
use reference::graph_table::{self, BLOCK_WORDS, ENDING_OFFSET, GRAPH_WORDS};
use reference::machine::MAX_WIRES;
use reference::machine_table::{self, MACHINE_WORDS};
use reference::operations::{read, run_graph, synthesise, write, ReadAnswer, WriteAnswer};
use reference::print::print;
use reference::random::Random;
use reference::synthesis;

const FILL: u32 = 0xDEAD_BEEF;

#[test]
fn writing_undoes_reading_and_reading_writing() {
    for graph in many_graphs(31, 1_500) {
        let text = print(&graph).into_bytes();
        let mut table = vec![FILL; GRAPH_WORDS + 3];
        assert_eq!(read(&text, &mut table), ReadAnswer { number: 0, line: 0 });
        assert_eq!(table[GRAPH_WORDS..], [FILL; 3]);
        let mut output = vec![7; text.len() + 5];
        let answer = write(&table, &mut output);
        assert_eq!(answer, WriteAnswer { number: 0, length: text.len() as u32 });
        assert_eq!(output[..text.len()], text[..]);
        assert_eq!(output[text.len()..], [7; 5]);
        let mut again = vec![1; GRAPH_WORDS];
        assert_eq!(read(&output[..text.len()], &mut again).number, 0);
        assert_eq!(again[..], table[..GRAPH_WORDS]);
    }
}

#[test]
fn writing_needs_the_exact_length() {
    let table = graph_table_of(P7);
    let length = P7.len() as u32;
    let mut exact = vec![7; P7.len()];
    assert_eq!(write(&table, &mut exact), WriteAnswer { number: 0, length });
    let mut short = vec![7; P7.len() - 1];
    assert_eq!(write(&table, &mut short), WriteAnswer { number: 8, length });
    assert_eq!(short, vec![7; P7.len() - 1]);
    assert_eq!(write(&table, &mut []), WriteAnswer { number: 8, length });
}

/// Where a word stands in a block, and whether it may hold a value there.
fn block_word_allowed(graph: &Graph, block: usize, place: usize, value: u32) -> bool {
    let (b, r) = (graph.blocks.len() as u32, graph.registers as u32);
    let table = graph_table::encode(graph);
    let words = &table[2 + block * BLOCK_WORDS..][..BLOCK_WORDS];
    let (count, kind) = (words[0] as usize, words[ENDING_OFFSET]);
    if place == 0 {
        return false;
    }
    if place < ENDING_OFFSET {
        let (index, slot) = ((place - 1) / 4, (place - 1) % 4);
        if index >= count {
            return value == 0;
        }
        let one_operand = |code| matches!(code, 2 | 11);
        let at = &words[1 + 4 * index..][..4];
        return match slot {
            0 if value == 20 => at[2] == 0 && at[3] == 0,
            2 | 3 if at[0] == 20 => value == 0,
            0 if at[0] == 1 => value == 1 || (at[2] < r && (2..=11).contains(&value)),
            0 if at[3] != 0 => (3..=10).contains(&value),
            0 => (1..=11).contains(&value),
            2 if at[0] == 1 => true,
            3 if at[0] == 1 || one_operand(at[0]) => value == 0,
            _ => value < r,
        };
    }
    match (kind, place - ENDING_OFFSET) {
        (2, 1) => (12..=17).contains(&value),
        (2, 2 | 3) => value < r,
        (2, 4 | 5) | (1, 4) => value < b,
        (_, 0) => kind_allowed(&words[ENDING_OFFSET..], value),
        _ => value == 0,
    }
}

/// Another ending kind is right only where its unused words are 0 already.
fn kind_allowed(ending: &[u32], value: u32) -> bool {
    match value {
        1 => ending[1] == 0,
        2 => ending[1] != 0,
        3 => ending[1] == 0 && ending[4] == 0,
        _ => false,
    }
}

#[test]
fn every_word_of_a_graph_table_is_checked() {
    let reading = many_reading_graphs(35, 3);
    for graph in many_silent_graphs(32, 4).into_iter().chain(reading) {
        let table = graph_table::encode(&graph);
        for at in 2..GRAPH_WORDS {
            let (block, place) = ((at - 2) / BLOCK_WORDS, (at - 2) % BLOCK_WORDS);
            for value in (0..=22).chain([63, 64, 255, 256, 2_147_483_648, u32::MAX]) {
                if table[at] == value {
                    continue;
                }
                let mut changed = table.clone();
                changed[at] = value;
                let allowed =
                    block < graph.blocks.len() && block_word_allowed(&graph, block, place, value);
                assert_eq!(graph_table::decode(&changed).is_some(), allowed, "{at} {value}");
            }
        }
    }
}

#[test]
fn a_refused_graph_table_changes_nothing() {
    let mut table = graph_table_of(P7);
    table[41] = 1;
    let mut output = vec![7; 200];
    assert_eq!(write(&table, &mut output), WriteAnswer { number: 6, length: 0 });
    assert_eq!(output, vec![7; 200]);
    let mut machine = vec![FILL; MACHINE_WORDS];
    assert_eq!(synthesise(&table, &mut machine), 6);
    assert_eq!(machine, vec![FILL; MACHINE_WORDS]);
    let mut words = registers(&[12, 18]);
    assert_eq!(run_graph(&table, &mut words, 6, 5), refused(6));
    assert_eq!(words, registers(&[12, 18]));
}

#[test]
fn short_tables_are_7_before_anything_else() {
    let table = graph_table_of(P7);
    let short = &table[..GRAPH_WORDS - 1];
    assert_eq!(read(P7.as_bytes(), &mut [FILL; GRAPH_WORDS - 1]).number, 7);
    assert_eq!(read(&[b'x'; 16_384], &mut []).number, 7);
    assert_eq!(read(&[b'x'; 16_385], &mut []), ReadAnswer { number: 1, line: 0 });
    assert_eq!(write(short, &mut []), WriteAnswer { number: 7, length: 0 });
    assert_eq!(synthesise(short, &mut vec![0; MACHINE_WORDS]), 7);
    assert_eq!(synthesise(&[FILL; GRAPH_WORDS], &mut vec![0; MACHINE_WORDS - 1]), 7);
    assert_eq!(run_graph(short, &mut [0; 16], 99, 1), refused(7));
    assert_eq!(run_graph(&[FILL; GRAPH_WORDS], &mut [0; 15], 99, 1), refused(7));
    assert_eq!(run_graph(&table, &mut [0; 16], 6, 1), refused(9));
    assert_eq!(run_graph(&table, &mut [0; 16], u32::MAX, 1), refused(9));
    assert_eq!(run_graph(&table, &mut [0; 16], 5, 1), halted(1));
}

#[test]
fn synthesised_tables_are_whole() {
    for graph in many_graphs(33, 1_500) {
        let mut table = vec![FILL; MACHINE_WORDS + 2];
        assert_eq!(synthesise(&graph_table::encode(&graph), &mut table), 0);
        assert_eq!(table[MACHINE_WORDS..], [FILL; 2]);
        let (grouping, machine) = synthesis::synthesise(&graph);
        assert_eq!(machine_table::decode(&table), Some(machine.clone()));
        assert_eq!(machine_table::encode(&grouping, &machine)[..], table[..MACHINE_WORDS]);
        assert!(machine.wire_count() <= MAX_WIRES);
        assert!(machine.states.iter().all(|state| state.wires.len() >= 2));
    }
}

/// No text is too long to be read again, and no machine has too many wires.
#[test]
fn largest_graphs_fit() {
    let [long, wide] = largest_graphs();
    let text = print(&long);
    assert_eq!(refusal(&text), (0, 0));
    assert!(text.len() < 16_384, "{}", text.len());
    let (grouping, machine) = synthesis::synthesise(&wide);
    assert_eq!(grouping.starters.len(), 64);
    assert_eq!(machine.wire_count(), 64 * 31);
}

/// Graphs of 64 blocks, 16 registers and 8 instructions in each block.
#[test]
fn full_graphs_fit() {
    let mut random = Random::new(34);
    for _ in 0..60 {
        let size = Size { blocks: 64, registers: 16, instructions: 8 };
        let graph = generate_graph(&mut random, size);
        let (_, machine) = synthesis::synthesise(&graph);
        assert!(machine.wire_count() <= MAX_WIRES);
        assert!(print(&graph).len() <= 16_384);
    }
}
