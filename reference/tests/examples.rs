//! The worked examples P1 to P13, those only run, and the wrong turns.

mod common;

use common::blocks::mend_blocks;
use common::*;
use reference::generate::examples::{
    one_comparison, one_instruction, P10, P11, P12, P7, P9, SEVEN,
};
use reference::graph_table::GRAPH_WORDS;
use reference::grouping::group;
use reference::listing::listing;
use reference::machine_table::{ARRIVALS_AT, MACHINE_WORDS, RECORDS_AT, WIRES_AT};
use reference::operations::synthesise;

#[test]
fn p1_empty_text() {
    assert_eq!(refusal(""), (3, 1));
    assert_eq!(listing(b""), "refused,3,1\n");
}

#[test]
fn p2_graph_line_alone() {
    assert_eq!(refusal("graph,65,1\n"), (2, 1));
    assert_eq!(refusal("graph,64,1\n"), (3, 2));
}

#[test]
fn p3_target_at_block_count() {
    assert_eq!(refusal("graph,2,1\nblock,0\ngoto,2\nblock,1\nhalt\n"), (5, 3));
    assert_eq!(refusal("graph,2,1\nblock,0\ngoto,1\nblock,1\nhalt\n"), (0, 0));
}

/// Register 0 after one block, which graph and machine must agree on.
fn result(line: &str, words: &[u32]) -> u32 {
    let text = one_instruction(line);
    let (on_graph, on_machine) = (on_graph(&text, words, 1), on_machine(&text, words, 1));
    assert_eq!(on_graph, on_machine);
    on_graph.1[0]
}

fn compared(name: &str, x: u32, y: u32) -> u32 {
    let text = one_comparison(name);
    let (on_graph, on_machine) = (on_graph(&text, &[x, y], 2), on_machine(&text, &[x, y], 1));
    assert_eq!((on_graph.0, on_machine.0), (halted(2), halted(1)));
    assert_eq!(on_graph.1, on_machine.1);
    on_graph.1[2]
}

#[test]
fn p4_sign_extension() {
    assert_eq!(result("sx,0,1", &[0, 32_767]), 32_767);
    assert_eq!(result("sx,0,1", &[0, 32_768]), 4_294_934_528);
    assert_eq!(result("sx,0,1", &[0, 0x1234_7FFF]), 32_767);
    assert_eq!(result("sx,0,1", &[0, 0x1234_FFFF]), 4_294_967_295);
}

#[test]
fn p5_signed_and_unsigned() {
    assert_eq!(compared("lt", 4_294_967_096, 0), 1);
    assert_eq!(compared("ltu", 4_294_967_096, 0), 0);
    assert_eq!(compared("ge", 4_294_967_096, 0), 0);
    assert_eq!(compared("geu", 4_294_967_096, 0), 1);
    assert_eq!((compared("eq", 5, 5), compared("eq", 5, 6)), (1, 0));
    assert_eq!((compared("ne", 5, 5), compared("ne", 5, 6)), (0, 1));
    assert_eq!(compared("lt", 2_147_483_648, 2_147_483_647), 1);
    assert_eq!(compared("ge", 2_147_483_647, 2_147_483_648), 1);
    assert_eq!(compared("lt", 7, 7), 0);
    assert_eq!(compared("geu", 7, 7), 1);
}

#[test]
fn p6_arithmetic_wraps() {
    assert_eq!(result("sub,0,0,1", &[0, 1]), 4_294_967_295);
    assert_eq!(result("add,0,0,1", &[4_294_967_295, 1]), 0);
    assert_eq!(result("add,0,0,0", &[2_147_483_648]), 0);
    assert_eq!(result("and,0,0,1", &[12, 10]), 8);
    assert_eq!(result("or,0,0,1", &[12, 10]), 14);
    assert_eq!(result("xor,0,0,1", &[12, 10]), 6);
    assert_eq!(result("copy,0,1", &[12, 10]), 10);
    assert_eq!(result("set,0,-2147483648", &[12]), 2_147_483_648);
}

#[test]
fn shifts_below_32() {
    assert_eq!(result("shl,0,0,1", &[1, 31]), 2_147_483_648);
    assert_eq!(result("shl,0,0,1", &[3, 0]), 3);
    assert_eq!(result("shr,0,0,1", &[2_147_483_648, 31]), 1);
    assert_eq!(result("sar,0,0,1", &[2_147_483_648, 31]), 4_294_967_295);
    assert_eq!(result("sar,0,0,1", &[2_147_483_647, 30]), 1);
    assert_eq!(result("sar,0,0,1", &[4_294_967_294, 1]), 4_294_967_295);
}

#[test]
fn p7_starters_and_listing() {
    assert_eq!(starters_of(P7), [0, 1]);
    assert_eq!(block_states_of(P7, 7), [0, 1, 1, 1, 1, 1, 255]);
    assert_eq!(listing(P7.as_bytes()), "states,2,20\n0,0,1,2\n1,1,5,18\n");
}

/// The wires of P7, worked out by hand from paper 01 and, in the two subs, from R-2; the touch words
/// of R-4: state 0 keeps both registers, state 1 may change both; and the arrivals of R-7.
#[test]
fn p7_wires() {
    let wires: [[u32; 4]; 20] = [
        [1, 1, 0, 0],
        [1, 1, 0, 0],
        [1, 1, 0, 0],
        [13, 0, 1, 0],
        [5, 16, 17, 0],
        [18, 16, 17, 0],
        [16, 0, 1, 0],
        [5, 18, 20, 0],
        [18, 18, 20, 0],
        [4, 1, 0, 21],
        [4, 0, 1, 22],
        [1, 1, 0, 0],
        [1, 1, 0, 0],
        [19, 22, 26, 25],
        [19, 22, 24, 0],
        [19, 22, 1, 23],
        [1, 255, 0, 0],
        [19, 19, 30, 27],
        [19, 19, 0, 28],
        [19, 19, 1, 29],
    ];
    let mut table = vec![2, 2, 0, 1];
    table.resize(66, 0);
    table.extend([0, 1, 1, 1, 1, 1]);
    table.resize(RECORDS_AT, 255);
    table.extend([0, 2, 17, 0, 1]);
    table.resize(RECORDS_AT + 20, 0);
    table.extend([2, 18, 31, 32, 33]);
    table.resize(RECORDS_AT + 20 + 19, 0);
    table.push(3);
    table.resize(WIRES_AT, 0);
    table.extend(wires.iter().flatten());
    table.resize(ARRIVALS_AT, 0);
    table.extend([16, 16, 18, 21, 22, 19]);
    table.resize(MACHINE_WORDS, 0);
    assert_eq!(machine_table_of(P7), table);
}

/// Both targets equal make two edges from one source, the true one first.
#[test]
fn equal_targets_join_with_themselves() {
    let text = "graph,2,1\nblock,0\nset,0,7\nite,eq,0,0,1,1\nblock,1\nhalt\n";
    let machine = machine_table_of(text);
    let wires: [[u32; 4]; 8] = [
        [1, 1, 0, 0],
        [1, 7, 0, 0],
        [12, 17, 17, 0],
        [5, 16, 18, 0],
        [18, 16, 18, 0],
        [6, 19, 20, 0],
        [19, 20, 17, 17],
        [1, 255, 0, 0],
    ];
    let flat: Vec<u32> = wires.iter().flatten().copied().collect();
    assert_eq!(machine[WIRES_AT..WIRES_AT + 32], flat[..]);
    assert_eq!(machine[WIRES_AT + 32..ARRIVALS_AT], vec![0; ARRIVALS_AT - WIRES_AT - 32][..]);
    assert_eq!(machine[ARRIVALS_AT..ARRIVALS_AT + 3], [16, 21, 0]);
    assert_eq!(machine[RECORDS_AT..RECORDS_AT + 4], [0, 8, 23, 22]);
}

#[test]
fn p8_run_of_p7() {
    let (answer, registers) = on_graph(P7, &[12, 18], u32::MAX);
    assert_eq!((answer, &registers[..2]), (halted(9), &[6, 6][..]));
    let (answer, registers) = on_machine(P7, &[12, 18], u32::MAX);
    assert_eq!((answer, &registers[..2]), (halted(4), &[6, 6][..]));
    // The budget that the halting unit uses up still answers halted.
    assert_eq!(on_graph(P7, &[12, 18], 9).0, halted(9));
    assert_eq!(on_graph(P7, &[12, 18], 8).0, spent(8, 5));
    assert_eq!(on_machine(P7, &[12, 18], 4).0, halted(4));
    assert_eq!(on_machine(P7, &[12, 18], 3).0, spent(3, 1));
}

#[test]
fn p9_to_p12_starters() {
    assert_eq!(starters_of(P9), [0, 1, 3, 4]);
    assert_eq!(block_states_of(P9, 5), [0, 1, 0, 2, 3]);
    assert_eq!(starters_of(P10), [0, 1, 2]);
    assert_eq!(starters_of(P11), [0]);
    assert_eq!(starters_of(P12), [0]);
    assert_eq!(block_states_of(P12, 4), [0, 0, 255, 255]);
}

#[test]
fn p11_never_halts() {
    for budget in [0, 1, 2, 100, 5_000] {
        assert_eq!(on_graph(P11, &[1], budget).0, spent(budget, 0));
        assert_eq!(on_machine(P11, &[1], budget).0, spent(budget, 0));
    }
}

#[test]
fn p13_budget_0() {
    for text in [P7, P9, P10, P11, P12] {
        assert_eq!(on_graph(text, &[12, 18], 0), (spent(0, 0), registers(&[12, 18])));
        assert_eq!(on_machine(text, &[12, 18], 0), (spent(0, 0), registers(&[12, 18])));
    }
}

#[test]
fn run_only() {
    let nine = format!("graph,1,1\nblock,0\n{}halt\n", "set,0,1\n".repeat(9));
    assert_eq!(refusal(&nine), (3, 11));
    let eight = format!("graph,1,1\nblock,0\n{}halt\n", "set,0,1\n".repeat(8));
    assert_eq!(refusal(&eight), (0, 0));
    for budget in (0..200).chain([10_000]) {
        let (answer, _) = on_graph(P7, &[0, 5], budget);
        assert_eq!((answer.number, answer.halted, answer.count), (0, false, budget));
        let (answer, _) = on_machine(P7, &[0, 5], budget);
        assert_eq!((answer.number, answer.halted, answer.count), (0, false, budget));
    }
}

#[test]
fn the_published_seven_block_graph() {
    assert_eq!(starters_of(SEVEN), [0, 3, 1, 5]);
    let grouping = group(&graph_of(SEVEN));
    let states: Vec<Vec<usize>> =
        (0..4).map(|state| grouping.blocks_of(state).into_iter().collect()).collect();
    assert_eq!(states, [vec![0], vec![3, 4], vec![1, 2], vec![5, 6]]);
}

/// Wrong turn 1: block 4 of P9 must not be entered within a state.
#[test]
fn p9_enters_no_state_in_its_middle() {
    let (graph, grouping) = (graph_of(P9), group(&graph_of(P9)));
    for block in 0..5 {
        for next in graph.successors(block) {
            let same = grouping.state_of[&block] == grouping.state_of[&next];
            assert!(same || grouping.starters.contains(&next));
        }
    }
}

/// Wrong turn 2: in P12 block 2 adds no join to block 1.
#[test]
fn p12_counts_no_unreachable_edge() {
    let machine = machine_table_of(P12);
    assert_eq!(machine[RECORDS_AT..RECORDS_AT + 4], [0, 2, 17, 0]);
    assert_eq!(machine[WIRES_AT..WIRES_AT + 8], [1, 1, 0, 0, 1, 255, 0, 0]);
    assert_eq!(listing(P12.as_bytes()), "states,1,2\n0,0,2,2\n");
    let mut again = vec![0; MACHINE_WORDS];
    let without = "graph,2,1\nblock,0\ngoto,1\nblock,1\nhalt\n";
    assert_eq!(synthesise(&graph_table_of(without), &mut again), 0);
    assert_eq!(machine, again);
    assert_eq!(graph_table_of(P12).len(), GRAPH_WORDS);
}

/// Wrong turn 3: all next registers are taken at once.
#[test]
fn registers_swap_in_one_cycle() {
    let mut table = vec![0; MACHINE_WORDS];
    (table[0], table[1]) = (1, 2);
    table[RECORDS_AT..RECORDS_AT + 5].copy_from_slice(&[0, 1, 16, 1, 0]);
    table[RECORDS_AT + 19] = 3;
    table[WIRES_AT..WIRES_AT + 4].copy_from_slice(&[1, 0, 0, 0]);
    mend_blocks(&mut table);
    let mut registers = registers(&[3, 8]);
    assert_eq!(run_machine(&table, &mut registers, 0, 3), spent(3, 0));
    assert_eq!(registers[..2], [8, 3]);
    let text = "graph,1,3\nblock,0\ncopy,2,0\ncopy,0,1\ncopy,1,2\ngoto,0\n";
    assert_eq!(on_machine(text, &[3, 8, 0], 1).1[..3], [8, 3, 3]);
}

/// Wrong turn 4: an edge back to the own starter ends the cycle.
#[test]
fn a_loop_takes_one_cycle_a_turn() {
    let text = "graph,2,3\nblock,0\nadd,0,0,1\nite,ltu,0,2,0,1\nblock,1\nhalt\n";
    assert_eq!(starters_of(text), [0]);
    for cycles in 1..5 {
        let (answer, registers) = on_machine(text, &[0, 1, 5], cycles);
        assert_eq!((answer, registers[0]), (spent(cycles, 0), cycles));
    }
    assert_eq!(on_machine(text, &[0, 1, 5], 9).0, halted(5));
    assert_eq!(on_graph(text, &[0, 1, 5], 9).0, halted(6));
}

/// Blocks are placed lowest number first, and edges go by the source's place.
#[test]
fn a_join_takes_its_edges_by_place() {
    let text = "graph,4,1\nblock,0\nite,eq,0,0,3,1\nblock,1\nset,0,5\ngoto,2\nblock,2\nhalt\n\
block,3\nset,0,6\ngoto,2\n";
    let machine = machine_table_of(text);
    let wires: [[u32; 4]; 9] = [
        [1, 1, 0, 0],
        [12, 0, 0, 0],
        [5, 16, 17, 0],
        [18, 16, 17, 0],
        [1, 5, 0, 0],
        [1, 6, 0, 0],
        [6, 19, 18, 0],
        [19, 18, 21, 20],
        [1, 255, 0, 0],
    ];
    let flat: Vec<u32> = wires.iter().flatten().copied().collect();
    assert_eq!(machine[WIRES_AT..WIRES_AT + 36], flat[..]);
    assert_eq!(machine[RECORDS_AT..RECORDS_AT + 4], [0, 9, 24, 23]);
}
