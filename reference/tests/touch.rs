//! Which states touch a register (paper 02, R-4), clause by clause.

mod common;

use common::touch::{mend, reference, touch_at, touch_word, Reading};
use common::*;
use reference::generate::examples::{P10, P11, P12, P7, P9, SEVEN};
use reference::generate::fixed::largest_graphs;
use reference::generate::machine_damage;
use reference::generate::touch_cases::{
    ALL_TOUCH, ENDS_TOUCH, FOUR, LAST_TOUCHES, NONE_TOUCHES, WORDS_OF_FOUR,
};
use reference::machine_table::{ARRIVALS_AT, MACHINE_WORDS, RECORDS_AT, RECORD_WORDS, WIRES_AT};
use reference::operations::{
    first_touching, synthesise, touches, FirstTouchingAnswer, TouchesAnswer,
};
use reference::print::print;
use reference::random::Random;

fn example(name: &str) -> String {
    let path = format!("{}/../examples/{name}.txt", env!("CARGO_MANIFEST_DIR"));
    std::fs::read_to_string(path).expect("an example")
}

/// The touch words of the states below N.
fn touch_words(table: &[u32]) -> Vec<u32> {
    (0..table[0] as usize).map(|state| table[touch_at(state)]).collect()
}

fn touched(table: &[u32], state: u32, register: u32) -> bool {
    let TouchesAnswer { number, touched } = touches(table, state, register);
    assert_eq!(number, 0);
    touched
}

/// The state found, or 255.
fn first(table: &[u32], register: u32) -> u32 {
    let FirstTouchingAnswer { number, state } = first_touching(table, register);
    assert_eq!(number, 0);
    state
}

fn refused_both(table: &[u32], state: u32, register: u32) -> (u32, u32) {
    let (asked, searched) = (touches(table, state, register), first_touching(table, register));
    assert!(asked.number == 0 || !asked.touched);
    assert!(searched.number == 0 || searched.state == 0);
    (asked.number, searched.number)
}

#[test]
fn the_layout() {
    assert_eq!((RECORD_WORDS, WIRES_AT, MACHINE_WORDS), (20, 1_410, 13_762));
    assert_eq!(RECORDS_AT, 130);
    assert_eq!(touch_at(0), 149);
}

/// By hand from the texts. A state with one way out and no join touches what its instructions
/// write; with several ways out or a join at its end every register becomes a choice.
#[test]
fn touch_words_of_the_examples() {
    for (name, words) in [
        ("gcd", vec![0, 3]),
        // Block 6 is joined from blocks 0, 4 and 5: also r0, which nothing writes, is a choice.
        ("swing", vec![0b111111]),
        // Block 0 writes r1, r2, r5, r6 and r7.
        ("turn", vec![0b11100110, 0b11111111]),
        ("wrap", vec![0b110000, 0b111111]),
        ("p9", vec![3, 3, 0, 0]),
        ("p10", vec![3, 3, 0]),
        ("p11", vec![0]),
        ("p12", vec![0]),
        // Block 0 writes r2 and r3, blocks 5 and 6 write r2 and r0.
        ("figure5", vec![0b1100, 0b1111, 0b1111, 0b0101]),
        ("table1", vec![0b1111, 0b1111, 0b1111]),
    ] {
        assert_eq!(touch_words(&machine_table_of(&example(name))), words, "{name}");
    }
}

#[test]
fn first_states_of_the_examples() {
    for (name, states) in [
        ("gcd", vec![1, 1, 255]),
        ("swing", vec![0, 0, 0, 0, 0, 0, 255]),
        ("turn", vec![1, 0, 0, 1, 1, 0, 0, 0, 255]),
        ("wrap", vec![1, 1, 1, 1, 0, 0, 255]),
        ("p9", vec![0, 0, 255]),
        ("p11", vec![255, 255]),
        ("figure5", vec![1, 1, 0, 0, 255]),
    ] {
        let table = machine_table_of(&example(name));
        for (register, state) in (0..).zip(states) {
            assert_eq!(first(&table, register), state, "{name} {register}");
        }
    }
}

#[test]
fn touch_words_of_the_small_graphs() {
    let words = |text: &str| touch_words(&machine_table_of(text));
    assert_eq!(words(FOUR), WORDS_OF_FOUR);
    assert_eq!(words(NONE_TOUCHES), [0, 0]);
    assert_eq!(words(LAST_TOUCHES), [0, 1]);
    assert_eq!(words(ALL_TOUCH), [1, 1]);
    assert_eq!(words(ENDS_TOUCH), [1 << 15, 1]);
    // A copy of a register to itself touches it, and so does a choice between equal ones.
    assert_eq!(words("graph,1,2\nblock,0\ncopy,1,1\nhalt\n"), [2]);
    assert_eq!(words("graph,2,2\nblock,0\nite,eq,0,0,1,1\nblock,1\nhalt\n"), [3]);
    // A value that is written over, and one that comes back.
    assert_eq!(words("graph,1,2\nblock,0\nset,0,1\nset,0,2\nhalt\n"), [1]);
    assert_eq!(words("graph,1,2\nblock,0\ncopy,1,0\ncopy,0,1\nhalt\n"), [3]);
}

/// The register's bit is that of its number, and no other bit is set; unused records are 0.
#[test]
fn each_register_has_its_bit() {
    for registers in 1..=16 {
        for register in 0..registers {
            let text = format!("graph,1,{registers}\nblock,0\nset,{register},7\nhalt\n");
            let table = machine_table_of(&text);
            assert_eq!(table[touch_at(0)], 1 << register);
            assert!((1..64).all(|state| table[touch_at(state)] == 0));
            for other in (0..40).chain([u32::MAX, 1 << 31, (1 << 31) + register]) {
                assert_eq!(touched(&table, 0, other), other == register, "{register} {other}");
                let expected = if other == register { 0 } else { 255 };
                assert_eq!(first(&table, other), expected, "{register} {other}");
            }
        }
    }
}

/// What the references say of a register, by the words of the table alone.
fn by_references(table: &[u32], state: usize, register: u32) -> bool {
    register < table[1] && reference(table, state, register as usize) != register
}

/// Both answers equal a full look at the references, for every state and many registers.
fn answers_are_right(table: &[u32]) {
    let registers = (0..35).chain([47, 48, 255, 256, 1 << 31, u32::MAX - 31, u32::MAX]);
    for register in registers {
        let states = 0..table[0] as usize;
        let touching: Vec<usize> =
            states.clone().filter(|&state| by_references(table, state, register)).collect();
        for state in states {
            let expected = touching.contains(&state);
            assert_eq!(touched(table, state as u32, register), expected);
            let bit = if register < 32 { (table[touch_at(state)] >> register) & 1 } else { 0 };
            assert_eq!(bit == 1, expected);
        }
        assert_eq!(first(table, register), touching.first().map_or(255, |&state| state as u32));
    }
}

#[test]
fn synthesised_machines_are_answered_by_their_references() {
    let graphs = many_graphs(51, 600).into_iter().chain(many_sum_graphs(52, 100));
    for graph in graphs.chain(largest_graphs()) {
        let table = machine_table_of(&print(&graph));
        answers_are_right(&table);
        for state in 0..64 {
            let below = state < table[0] as usize;
            let expected = if below { touch_word(Reading::Right, &table, state) } else { 0 };
            assert_eq!(table[touch_at(state)], expected, "{state}");
        }
    }
}

/// Tables that synthesis did not make, with touch words that are right.
#[test]
fn other_machines_are_answered_by_their_references() {
    let (mut random, mut seen) = (Random::new(53), 0);
    for graph in many_graphs(54, 400) {
        let mut table = machine_table_of(&print(&graph));
        for (at, word) in machine_damage::patches(&mut random, &table.clone()) {
            if let Some(place) = table.get_mut(at as usize) {
                *place = word;
            }
        }
        if run_machine_with_words(&table, &mut [0; 16], 0, 0, &[]).number == 0 {
            answers_are_right(&table);
            seen += 1;
        }
    }
    assert!(seen > 150, "{seen}");
}

/// All that asks for an admitted table, on a table with one word changed.
fn numbers(at: usize, word: u32) -> [u32; 4] {
    let mut table = machine_table_of(FOUR);
    table[at] = word;
    let (asked, searched) = refused_both(&table, 0, 0);
    let (mut x, mut y) = (registers(&[]), registers(&[]));
    let alone = run_machine(&table, &mut x, 0, 3).number;
    let on_words = run_machine_with_words(&table, &mut y, 0, 3, &[1; 3]).number;
    [asked, searched, alone, on_words]
}

/// Every bit of every state's touch word is checked, and of no other record.
#[test]
fn wrong_bits_are_refused() {
    for state in 0..64 {
        let right = WORDS_OF_FOUR.get(state).copied().unwrap_or(0);
        let expected = if state < 4 { 10 } else { 0 };
        for bit in 0..32 {
            assert_eq!(numbers(touch_at(state), right ^ 1 << bit), [expected; 4], "{state} {bit}");
        }
        assert_eq!(numbers(touch_at(state), right), [0; 4]);
        for word in [0, 7, 8, 65_535, u32::MAX].into_iter().filter(|&word| word != right) {
            assert_eq!(numbers(touch_at(state), word), [expected; 4], "{state} {word}");
        }
    }
}

/// A changed reference makes the touch word wrong where it comes to touch or to keep its register,
/// and nowhere else; then the other touch word is right.
#[test]
fn references_and_touch_words_go_together() {
    for state in 0..4 {
        let table = machine_table_of(FOUR);
        let wires = table[RECORDS_AT + state * RECORD_WORDS + 1];
        for register in 0..3 {
            for other in (0..3).chain([16, 15 + wires]) {
                let mut changed = table.clone();
                changed[RECORDS_AT + state * RECORD_WORDS + 3 + register] = other;
                let was = by_references(&table, state, register as u32);
                let is = other as usize != register;
                let expected = if was == is { (0, 0) } else { (10, 10) };
                assert_eq!(refused_both(&changed, state as u32, register as u32), expected);
                mend(&mut changed);
                assert_eq!(touched(&changed, state as u32, register as u32), is);
                answers_are_right(&changed);
            }
        }
    }
}

/// Another register touches as a wire does.
#[test]
fn another_register_touches() {
    let mut table = machine_table_of(NONE_TOUCHES);
    table[RECORDS_AT + RECORD_WORDS + 4] = 0;
    assert_eq!(refused_both(&table, 0, 1), (10, 10));
    table[touch_at(1)] = 2;
    assert!(touched(&table, 1, 1) && !touched(&table, 0, 1) && !touched(&table, 1, 0));
    assert_eq!((first(&table, 1), first(&table, 0)), (1, 255));
}

/// Next references from R up are not read, and no touch word has their bits.
#[test]
fn references_from_r_up_are_not_read() {
    for (register, word) in [(3, 3), (3, 16), (4, u32::MAX), (15, 15), (15, 0)] {
        let mut table = machine_table_of(FOUR);
        table[RECORDS_AT + 3 + register] = word;
        assert!(!touched(&table, 0, register as u32));
        assert_eq!(first(&table, register as u32), 255);
    }
}

/// With another R a touch word is that of the registers then.
#[test]
fn other_register_counts() {
    let mut table = machine_table_of(LAST_TOUCHES);
    table[1] = 16;
    assert_eq!(refused_both(&table, 0, 5), (10, 10));
    // The next references of the added registers are 0.
    (table[touch_at(0)], table[touch_at(1)]) = (0xFFFC, 0xFFFD);
    assert!(touched(&table, 0, 15) && touched(&table, 1, 2) && !touched(&table, 1, 16));
    assert_eq!([0, 1, 2, 15, 16].map(|register| first(&table, register)), [1, 255, 0, 0, 255]);
    let mut table = machine_table_of(NONE_TOUCHES);
    table[1] = 1;
    assert!(!touched(&table, 1, 1));
}

/// The lowest-numbered state is found, the last one too, and one of those that are added.
#[test]
fn the_search() {
    let table = machine_table_of(FOUR);
    assert_eq!([0, 1, 2, 3].map(|register| first(&table, register)), [1, 2, 3, 255]);
    let mut table = machine_table_of("graph,1,1\nblock,0\nhalt\n");
    table[0] = 64;
    assert_eq!(first(&table, 0), 255);
    for state in (0..64).rev() {
        // Each gets a wire of its own behind the two that there are.
        let at = RECORDS_AT + state * RECORD_WORDS;
        (table[at], table[at + 1], table[at + 2], table[at + 3]) = (2 + state as u32, 1, 0, 16);
        (table[at + 19], table[WIRES_AT + 4 * (2 + state)]) = (1, 1);
        assert_eq!(first(&table, 0), state as u32);
        assert_eq!(first(&table, 32), 255);
    }
}

/// 7, then 10, then 9; the search has no 9. A register is never refused.
#[test]
fn orders_of_refusals() {
    let table = machine_table_of(FOUR);
    let mut wrong = table.clone();
    wrong[touch_at(3)] = 3;
    for register in [0, 2, 3, 16, 32, u32::MAX] {
        assert_eq!(refused_both(&table, 3, register), (0, 0));
        for state in [4, 5, 63, 64, 255, 256, u32::MAX] {
            assert_eq!(refused_both(&table, state, register), (9, 0));
            assert_eq!(refused_both(&wrong, state, register), (10, 10));
            assert_eq!(refused_both(&wrong[..MACHINE_WORDS - 1], state, register), (7, 7));
        }
        for length in [0, 1, 2, 1_410, 13_634, 13_698, 13_761] {
            assert_eq!(refused_both(&table[..length], 0, register), (7, 7));
            assert_eq!(refused_both(&table[..length], 9, register), (7, 7));
        }
    }
    let longer = [&table[..], &[u32::MAX; 9]].concat();
    assert_eq!(refused_both(&longer, 3, 2), (0, 0));
    assert_eq!((touched(&longer, 3, 2), first(&longer, 2)), (true, 3));
}

/// A table that was one before records had touch words is short, and one that is filled up with
/// zeros is no machine.
#[test]
fn tables_from_before() {
    for text in [P7, P9, P10, SEVEN, FOUR] {
        let table = machine_table_of(text);
        let mut old = table[..RECORDS_AT].to_vec();
        let records = table[RECORDS_AT..WIRES_AT].chunks(RECORD_WORDS);
        records.for_each(|record| old.extend(&record[..19]));
        old.extend(&table[WIRES_AT..ARRIVALS_AT]);
        assert_eq!(old.len(), 13_634);
        assert_eq!(refused_both(&old, 0, 0), (7, 7));
        old.resize(MACHINE_WORDS, 0);
        assert_eq!(refused_both(&old, 0, 0), (10, 10), "{text}");
    }
    // Of a machine that touches nothing the touch words are 0.
    for text in [P11, P12] {
        assert_eq!(touch_words(&machine_table_of(text)), [0]);
    }
}

/// A touched register may change in a cycle, and one that is not touched never does.
#[test]
fn registers_that_are_not_touched_stay() {
    let mut random = Random::new(55);
    for graph in many_silent_graphs(56, 200) {
        let table = machine_table_of(&print(&graph));
        for state in 0..table[0] {
            let before: Vec<u32> = (0..16).map(|_| random.word()).collect();
            let mut after = before.clone();
            assert_eq!(run_machine(&table, &mut after, state, 1).number, 0);
            for register in 0..16 {
                if !touched(&table, state, register) {
                    assert_eq!(before[register as usize], after[register as usize]);
                }
            }
        }
    }
}

/// A refused synthesis writes no touch word.
#[test]
fn refused_synthesis_changes_nothing() {
    let mut machine = vec![9; MACHINE_WORDS - 1];
    assert_eq!(synthesise(&graph_table_of(FOUR), &mut machine), 7);
    assert_eq!(machine, vec![9; MACHINE_WORDS - 1]);
}
