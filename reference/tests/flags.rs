//! The flag of a run (paper 02, R-2), clause by clause in all four runs.

mod common;

use common::*;
use reference::generate::examples::P7;
use reference::generate::sum_cases::{
    beside, one, turns, AT_HALT, EARLY, EITHER, JOIN, LOST, OVER, TWO_SUMS, WITHIN,
};
use reference::generate::word_cases::SUM;
use reference::graph::{Binary, Comparison};
use reference::machine_table::{MACHINE_WORDS, RECORDS_AT, RECORD_WORDS, WIRES_AT};
use reference::operations::{run_graph, run_graph_with_words, RunAnswer, WordsRunAnswer};

const MOST: u32 = 2_147_483_647;
const LEAST: u32 = 2_147_483_648;
const MINUS_1: u32 = 4_294_967_295;

/// The flags of a graph's two runs from block 0, which are the same; words are enough.
fn of_graph(text: &str, words: &[u32], budget: u32) -> bool {
    let (table, starters) = (graph_table_of(text), starters_of(text));
    let (mut x, mut y) = (registers(words), registers(words));
    let alone = run_graph(&table, &mut x, 0, budget);
    let on_words = run_graph_with_words(&table, &mut y, 0, budget, &[0; 99], &starters);
    assert_eq!((alone.number, on_words.number, x), (0, 0, y));
    assert_eq!((alone.count, alone.flag), (on_words.count, on_words.flag));
    alone.flag
}

/// The flags of a machine table's two runs from state 0, which are the same.
fn of_table(table: &[u32], words: &[u32], budget: u32) -> bool {
    let (mut x, mut y) = (registers(words), registers(words));
    let alone = run_machine(table, &mut x, 0, budget);
    let on_words = run_machine_with_words(table, &mut y, 0, budget, &[0; 99]);
    assert_eq!((alone.number, on_words.number, x), (0, 0, y));
    assert_eq!((alone.count, alone.flag), (on_words.count, on_words.flag));
    alone.flag
}

fn of_machine(text: &str, words: &[u32], budget: u32) -> bool {
    of_table(&machine_table_of(text), words, budget)
}

/// The flag of all four runs to the halt, or over 40 blocks and cycles.
fn flag(text: &str, words: &[u32]) -> bool {
    let flag = of_graph(text, words, 40);
    assert_eq!(of_machine(text, words, 40), flag, "{text}");
    flag
}

#[test]
fn sums_that_go_over_and_sums_that_do_not() {
    for (name, x, y) in OVER {
        assert!(flag(&one(name), &[x, y]), "{name} {x} {y}");
    }
    for (name, x, y) in WITHIN {
        assert!(!flag(&one(name), &[x, y]), "{name} {x} {y}");
    }
}

/// Every pair of words at and near the ends, 0, quarters and halves of the range.
#[test]
fn over_is_what_the_numbers_say() {
    let near =
        |word: u32| (0..4).flat_map(move |by| [word.wrapping_add(by), word.wrapping_sub(by)]);
    let words: Vec<u32> = [0, MOST, LEAST, 1 << 30, 3 << 30, 65_536, 0xFFFF_0000]
        .into_iter()
        .flat_map(near)
        .collect();
    for &x in &words {
        for &y in &words {
            let (a, b) = (i128::from(x as i32), i128::from(y as i32));
            assert_eq!(Binary::Add.goes_over(x, y), i32::try_from(a + b).is_err(), "{a} {b}");
            assert_eq!(Binary::Sub.goes_over(x, y), i32::try_from(a - b).is_err(), "{a} {b}");
        }
    }
}

/// Other instructions and comparisons never raise it, whatever their operands.
#[test]
fn only_sums_go_over() {
    let words = [MOST, LEAST, MINUS_1, 0, 1];
    let pairs = words.iter().flat_map(|&x| words.map(|y| [x, y]));
    for pair in pairs {
        for op in Binary::all().into_iter().filter(|op| !op.is_sum()) {
            assert!(!flag(&one(op.name()), &pair), "{} {pair:?}", op.name());
        }
        for comparison in Comparison::all() {
            let name = comparison.name();
            let text = format!("graph,2,2\nblock,0\nite,{name},0,1,1,1\nblock,1\nhalt\n");
            assert!(!flag(&text, &pair), "{name} {pair:?}");
        }
        for line in ["sx,1,0", "copy,1,0", "set,1,-2147483648"] {
            assert!(!flag(&format!("graph,1,2\nblock,0\n{line}\nhalt\n"), &pair), "{line}");
        }
    }
}

/// Only blocks that the run passes count, though a machine works out all wires of a state.
#[test]
fn blocks_that_are_not_arrived_at() {
    assert_eq!(starters_of(EITHER), [0]);
    for (x, y, of_add, of_sub) in [
        (MOST, 1, true, false),
        (LEAST, 1, false, true),
        (LEAST, LEAST, true, false),
        (MOST, MINUS_1, false, true),
        (LEAST, MOST, false, true),
        (5, 6, false, false),
    ] {
        assert_eq!(flag(EITHER, &[x, y, 7, 7]), of_add, "{x} {y}");
        assert_eq!(flag(EITHER, &[x, y, 7, 8]), of_sub, "{x} {y}");
    }
    for (name, x, y) in OVER {
        assert!(flag(&beside(name), &[x, y, 7, 7]), "{name} {x} {y}");
        assert!(!flag(&beside(name), &[x, y, 7, 8]), "{name} {x} {y}");
    }
}

/// A block with several incoming edges is arrived at by each of them.
#[test]
fn sums_behind_a_join() {
    assert!(flag(JOIN, &[LEAST, LEAST, 7, 7]));
    assert!(flag(JOIN, &[MOST, 1, 7, 8]));
    assert!(!flag(JOIN, &[MOST, 1, 7, 7]));
    assert!(!flag(JOIN, &[MOST - 1, 1, 7, 8]));
}

/// Word c of a sum is its block's arrival: the starter's wire, a taken edge, a join.
#[test]
fn arrivals_in_the_table() {
    let wire =
        |text: &str, index: usize| machine_table_of(text)[WIRES_AT + 4 * index..][..4].to_vec();
    assert_eq!(wire(&one("add"), 1), [3, 0, 1, 16]);
    assert_eq!(wire(&one("sub"), 1), [4, 0, 1, 16]);
    assert_eq!(wire(&one("xor"), 1), [7, 0, 1, 0]);
    assert_eq!(wire(EITHER, 4), [3, 0, 1, 18]);
    assert_eq!(wire(EITHER, 5), [4, 0, 1, 19]);
    assert_eq!(wire(JOIN, 7), [6, 21, 19, 0]);
    assert_eq!(wire(JOIN, 12), [3, 24, 25, 23]);
    // A goto passes its block's arrival on.
    let chain = "graph,2,2\nblock,0\ngoto,1\nblock,1\nsub,0,1,0\nhalt\n";
    assert_eq!(wire(chain, 1), [4, 1, 0, 16]);
    // Each state counts its own wires: the second starter's arrival is its wire 0.
    assert_eq!(machine_table_of(EARLY)[RECORDS_AT + RECORD_WORDS], 3);
    assert_eq!(wire(EARLY, 4), [4, 2, 3, 16]);
}

/// Once raised it stays, whatever the cycles after do; before that it is clear.
#[test]
fn it_stays_raised() {
    assert_eq!(starters_of(EARLY), [0, 1]);
    for budget in 0..9 {
        for run in [of_graph, of_machine] {
            assert_eq!(run(EARLY, &[MOST, 1, 4, 1, 0], budget), budget >= 1, "{budget}");
            assert_eq!(run(EARLY, &[5, 1, LEAST + 2, 1, 0], budget), budget >= 4, "{budget}");
            assert!(!run(EARLY, &[5, 1, 4, 1, 0], budget));
            // Over in cycles 1, 3, 5: the second time does not clear it.
            assert_eq!(run(&turns("add"), &[LEAST, LEAST], budget), budget >= 1, "{budget}");
            assert_eq!(run(&turns("sub"), &[LEAST, LEAST], budget), budget >= 2, "{budget}");
        }
    }
}

/// The block or cycle that halts counts too, and a halted run answers what was raised before.
#[test]
fn it_is_answered_at_a_halt() {
    assert_eq!(on_graph(AT_HALT, &[MOST, 3, 0, 1], 9).0, RunAnswer { flag: true, ..halted(4) });
    assert_eq!(on_machine(AT_HALT, &[MOST, 3, 0, 1], 9).0, RunAnswer { flag: true, ..halted(3) });
    assert_eq!(on_graph(AT_HALT, &[MOST, 3, 0, 1], 3).0, spent(3, 1));
    assert_eq!(on_machine(AT_HALT, &[MOST, 3, 0, 1], 2).0, spent(2, 0));
    assert_eq!(on_graph(AT_HALT, &[5, 3, 0, 1], 9).0, halted(4));
    assert_eq!(on_graph(EARLY, &[MOST, 1, 2, 1, 0], 99).0, RunAnswer { flag: true, ..halted(4) });
    assert_eq!(on_machine(EARLY, &[MOST, 1, 2, 1, 0], 99).0, RunAnswer { flag: true, ..halted(3) });
}

/// A dry run answers the flag of what it ran.
#[test]
fn it_is_answered_when_dry() {
    let raised = |outcome, count, next| WordsRunAnswer { flag: true, ..ran(outcome, count, next) };
    for run in [graph_on_words, machine_on_words] {
        assert_eq!(run(SUM, 0, 9, &[MOST]).0, ran(DRY, 1, 0));
        assert_eq!(run(SUM, 0, 9, &[MOST, 1]).0, raised(DRY, 2, 0));
        assert_eq!(run(SUM, 0, 9, &[MOST, 1, 0, 5]).0, raised(DRY, 4, 0));
        assert_eq!(run(SUM, 0, 9, &[MOST, 0, MINUS_1, 1]).0, ran(DRY, 4, 0));
        assert_eq!(run(SUM, 0, 2, &[MOST, 1, 0, 5]).0, raised(SPENT, 2, 0));
        assert_eq!(run(SUM, 0, 1, &[MOST, 1, 0, 5]).0, ran(SPENT, 1, 0));
        assert_eq!(run(SUM, 0, 9, &[]).0, ran(DRY, 0, 0));
    }
}

/// Every sum of a block counts, also one whose result is written over.
#[test]
fn several_sums_of_one_block() {
    for text in TWO_SUMS {
        assert!(flag(text, &[MOST, 1]), "{text}");
        assert!(!flag(text, &[5, 1]), "{text}");
    }
    // A sum sees the one before: neither operand was there at the start.
    let text = "graph,1,2\nblock,0\nset,0,2147483646\nset,1,1\nadd,0,0,1\nadd,0,0,1\nhalt\n";
    assert!(flag(text, &[]));
    let text = "graph,1,2\nblock,0\nset,0,2147483645\nset,1,1\nadd,0,0,1\nadd,0,0,1\nhalt\n";
    assert!(!flag(text, &[]));
}

/// A block that nothing reaches counts where a graph's run starts there.
#[test]
fn unreachable_blocks() {
    assert!(!flag(LOST, &[MOST, 1]));
    let table = graph_table_of(LOST);
    let mut words = registers(&[MOST, 1]);
    let answer = run_graph(&table, &mut words, 2, 9);
    assert_eq!(answer, RunAnswer { flag: true, ..halted(2) });
    let mut words = registers(&[MOST, 1]);
    let answer = run_graph_with_words(&table, &mut words, 2, 9, &[0], &[0, 2]);
    assert_eq!(answer, WordsRunAnswer { flag: true, ..ran(HALTED, 2, 255) });
}

/// Each run begins with a clear flag.
#[test]
fn runs_begin_clear() {
    let text = one("add");
    for words in [[MOST, 1], [5, 1], [MOST, 1], [MOST, 0]] {
        assert_eq!(flag(&text, &words), words == [MOST, 1]);
    }
    assert!(!of_graph(&text, &[MOST, 1], 0) && !of_machine(&text, &[MOST, 1], 0));
}

/// A refused run answers 0.
#[test]
fn refusals_answer_a_clear_flag() {
    let (graph, machine) = (graph_table_of(&one("add")), machine_table_of(&one("add")));
    let mut wrong = graph.clone();
    wrong[3] = 21;
    let reading = (graph_table_of(SUM), machine_table_of(SUM));
    let on_graph = |table: &[u32], start| run_graph(table, &mut registers(&[MOST, 1]), start, 9);
    assert_eq!(on_graph(&graph, 0), RunAnswer { flag: true, ..halted(1) });
    assert_eq!(on_graph(&graph[1..], 0), refused(7));
    assert_eq!(on_graph(&wrong, 0), refused(6));
    assert_eq!(on_graph(&reading.0, 0), refused(12));
    assert_eq!(on_graph(&graph, 1), refused(9));
    let on_machine =
        |table: &[u32], start| run_machine(table, &mut registers(&[MOST, 1]), start, 9);
    let mut wrong = machine.clone();
    wrong[WIRES_AT + 7] = 17;
    assert_eq!(on_machine(&machine, 0), RunAnswer { flag: true, ..halted(1) });
    assert_eq!(on_machine(&machine[1..], 0), refused(7));
    assert_eq!(on_machine(&wrong, 0), refused(10));
    assert_eq!(on_machine(&reading.1, 0), refused(12));
    assert_eq!(on_machine(&machine, 1), refused(9));
    let list = |starters: &[u32]| {
        run_graph_with_words(&graph, &mut registers(&[MOST, 1]), 0, 9, &[5], starters)
    };
    assert_eq!(list(&[0]), WordsRunAnswer { flag: true, ..ran(HALTED, 1, 255) });
    assert_eq!(list(&[0, 1]), refused_words(11));
    let words = run_machine_with_words(&wrong, &mut registers(&[MOST, 1]), 0, 9, &[5]);
    assert_eq!(words, refused_words(10));
}

/// The table of one sum with another word c.
fn with_arrival(name: &str, c: u32) -> Vec<u32> {
    let mut table = machine_table_of(&one(name));
    table[WIRES_AT + 7] = c;
    table
}

/// Any reference is admitted, and the flag counts where what it reads is nonzero.
#[test]
fn other_arrivals() {
    for (name, x, y) in OVER {
        let words = [x, y, 0, 2];
        for (c, value) in [(0, x), (1, y), (2, 0), (3, 2), (16, 1)] {
            let expected = value != 0;
            assert_eq!(of_table(&with_arrival(name, c), &words, 9), expected, "{name} {x} {y} {c}");
        }
    }
    for c in [0, 1, 2, 3, 16] {
        assert!(!of_table(&with_arrival("add", c), &[MOST - 1, 1, 7, 7], 9));
    }
    // The starter's wire with other literals.
    for (literal, expected) in [(0, false), (1, true), (2, true), (LEAST, true), (256, true)] {
        let mut table = machine_table_of(&one("add"));
        table[WIRES_AT + 1] = literal;
        assert_eq!(of_table(&table, &[MOST, 1], 9), expected, "{literal}");
    }
}

/// A register as arrival is that of the cycle's start.
#[test]
fn arrivals_are_read_at_the_start_of_the_cycle() {
    for (name, x, expected) in [("sub", 0, false), ("add", LEAST, true)] {
        let mut table = machine_table_of(&turns(name));
        table[WIRES_AT + 7] = 0;
        // r0 is 0 before or after each sum that goes over, and the least number else.
        for budget in 1..7 {
            assert_eq!(of_table(&table, &[x, LEAST], budget), expected, "{name} {budget}");
        }
    }
}

/// No reference: a register from R up, the wire itself, later wires, wires past the state's.
#[test]
fn arrivals_that_are_no_references() {
    for name in ["add", "sub"] {
        for c in [4, 5, 15, 17, 18, 19, 31, 3_088, 65_536, u32::MAX] {
            let table = with_arrival(name, c);
            let mut words = registers(&[5, 1]);
            assert_eq!(run_machine(&table, &mut words, 0, 9), refused(10), "{c}");
            let on_words = run_machine_with_words(&table, &mut words, 0, 9, &[1]);
            assert_eq!((on_words, words), (refused_words(10), registers(&[5, 1])), "{c}");
        }
    }
    // With 16 registers 15 is one.
    let mut table = machine_table_of("graph,1,16\nblock,0\nadd,0,0,1\nhalt\n");
    table[WIRES_AT + 7] = 15;
    assert!(!of_table(&table, &[MOST, 1], 9));
    let mut words = registers(&[MOST, 1]);
    words[15] = 9;
    assert!(of_table(&table, &words, 9));
}

/// A table from before R-2, whose words c are all 0, is admitted: they are register 0.
#[test]
fn tables_from_before() {
    for (text, words, expected) in [
        (&one("sub")[..], [0, LEAST, 0, 0], false),
        (&one("add"), [MOST, 1, 0, 0], true),
        (EITHER, [MOST, 1, 7, 8], true),
        (EITHER, [0, LEAST, 7, 8], false),
        (P7, [12, 18, 0, 0], false),
    ] {
        let mut table = machine_table_of(text);
        for wire in (WIRES_AT..MACHINE_WORDS).step_by(4) {
            if matches!(table[wire], 3 | 4) {
                table[wire + 3] = 0;
            }
        }
        assert_eq!(of_table(&table, &words, 40), expected, "{text}");
    }
}
