//! Which states touch a register, R-4 of paper 02.

use gutkavu::layout::machine::{NEXT_REGISTERS, RECORDS, RECORD_WORDS, TOUCH};
use gutkavu::operations::{first_touching, run_machine, run_machine_with_words, touches};
use gutkavu::operations::{FirstTouchingFields, TouchesFields};
use gutkavu::operations::{MachineRunFields, MachineRunWithWordsFields};
use gutkavu::{Graph, Machine, Refusal, MACHINE_WORDS, NONE};

/// The touch word of each state, worked out by hand. A state without `ite` touches the registers
/// that its blocks write; in one with an `ite`, wires choose the value of every register.
const EXAMPLES: [(&str, &[u32]); 10] = [
    (include_str!("../../../examples/gcd.txt"), &[0, 0b11]),
    (include_str!("../../../examples/p9.txt"), &[0b11, 0b11, 0, 0]),
    (include_str!("../../../examples/p10.txt"), &[0b11, 0b11, 0]),
    (include_str!("../../../examples/p11.txt"), &[0]),
    (include_str!("../../../examples/p12.txt"), &[0]),
    (include_str!("../../../examples/figure5.txt"), &[0b1100, 0b1111, 0b1111, 0b0101]),
    (include_str!("../../../examples/table1.txt"), &[0b1111, 0b1111, 0b1111]),
    (include_str!("../../../examples/swing.txt"), &[0b11_1111]),
    (include_str!("../../../examples/turn.txt"), &[0b1110_0110, 0b1111_1111]),
    (include_str!("../../../examples/wrap.txt"), &[0b11_0000, 0b11_1111]),
];

const FIGURE5: &str = EXAMPLES[5].0;
const TURN: &str = EXAMPLES[8].0;

fn machine(text: &str) -> Machine {
    text.parse::<Graph>().expect("a graph").synthesise()
}

/// Where a word of a state's record stands.
fn place(state: u32, word: usize) -> usize {
    RECORDS + state as usize * RECORD_WORDS + word
}

/// What a state answers for each of 64 registers, as a word with a bit for each.
fn touched(machine: &Machine, state: u32) -> u64 {
    let bit = |r| u64::from(machine.touches(state, r).expect("a state")) << r;
    (0..64).map(bit).sum()
}

/// The machine with one word of a state's record changed.
fn with(machine: &Machine, state: u32, word: usize, value: u32) -> Machine {
    let mut words = *machine.words();
    words[place(state, word)] = value;
    Machine::from_words(&words).expect("long enough")
}

/// What a look at the next reference says.
fn by_reference(machine: &Machine, state: u32, register: u32) -> bool {
    register < machine.registers()
        && machine.words()[place(state, NEXT_REGISTERS + register as usize)] != register
}

#[test]
fn states_of_the_examples() {
    for (text, touch_words) in EXAMPLES {
        let machine = machine(text);
        assert_eq!(machine.states() as usize, touch_words.len(), "{text}");
        for (state, &word) in (0..).zip(touch_words) {
            assert_eq!(machine.words()[place(state, TOUCH)], word, "{text}state {state}");
            assert_eq!(touched(&machine, state), word.into(), "{text}state {state}");
        }
    }
}

#[test]
fn both_questions_equal_a_look_at_all_references() {
    for (text, _) in EXAMPLES {
        let machine = machine(text);
        for register in (0..=64).chain([NONE, 256, 1 << 31, u32::MAX]) {
            let mut states = 0..machine.states();
            for state in states.clone() {
                let expected = by_reference(&machine, state, register);
                assert_eq!(machine.touches(state, register), Ok(expected), "{text}r{register}");
            }
            let first = states.find(|&state| by_reference(&machine, state, register));
            assert_eq!(machine.first_touching(register), Ok(first), "{text}r{register}");
        }
    }
}

#[test]
fn the_search_finds_the_lowest_state_or_none() {
    let firsts = |text| {
        let machine = machine(text);
        let registers = 0..machine.registers();
        registers.map(|register| machine.first_touching(register)).collect::<Vec<_>>()
    };
    assert_eq!(firsts(FIGURE5), [1, 1, 0, 0].map(|state| Ok(Some(state))));
    assert_eq!(firsts(TURN), [1, 0, 0, 1, 1, 0, 0, 0].map(|state| Ok(Some(state))));
    assert_eq!(firsts("graph,1,2\nblock,0\nset,1,7\nhalt\n"), [Ok(None), Ok(Some(0))]);
}

/// Of 64 states, each a block that may go to itself, only the given ones touch register 1.
fn touching(states: &[u32]) -> Machine {
    let block = |k| format!("block,{k}\nite,eq,0,1,{k},{}\n", (k + 1) % 64);
    let blocks: String = (0..64).map(block).collect();
    let mut words = *machine(&format!("graph,64,2\n{blocks}")).words();
    for state in 0..64 {
        let touched = states.contains(&state);
        words[place(state, NEXT_REGISTERS)] = 0;
        words[place(state, NEXT_REGISTERS + 1)] = if touched { 0 } else { 1 };
        words[place(state, TOUCH)] = if touched { 0b10 } else { 0 };
    }
    Machine::from_words(&words).expect("long enough")
}

#[test]
fn the_search_goes_through_all_states() {
    assert_eq!(touching(&[]).first_touching(1), Ok(None));
    for state in 0..64 {
        assert_eq!(touching(&[state]).first_touching(1), Ok(Some(state)));
        let more = touching(&[63, state]);
        assert_eq!([0, 1].map(|r| more.first_touching(r)), [Ok(None), Ok(Some(state))]);
        assert_eq!(more.touches(state, 1), Ok(true));
    }
}

/// Register 2 is touched in both states; 34 and 4294967266 have its lowest five bits.
#[test]
fn a_register_not_below_r_is_never_touched() {
    let machine = machine(TURN);
    assert_eq!((machine.registers(), machine.touches(1, 2)), (8, Ok(true)));
    for register in [8, 15, 16, 31, 32, 34, 40, NONE, u32::MAX - 29, u32::MAX] {
        assert_eq!([0, 1].map(|state| machine.touches(state, register)), [Ok(false); 2]);
        assert_eq!(machine.first_touching(register), Ok(None), "{register}");
    }
}

#[test]
fn sixteen_registers_have_a_bit_each() {
    let sets: String = (8..16).map(|register| format!("set,{register},0\n")).collect();
    let machine = machine(&format!("graph,1,16\nblock,0\n{sets}halt\n"));
    assert_eq!(touched(&machine, 0), 0xFF00);
    assert_eq!(machine.words()[place(0, TOUCH)], 0xFF00);
}

/// The next reference of such a register is the wire of the copy.
#[test]
fn a_register_that_is_copied_to_itself_is_touched() {
    assert_eq!(touched(&machine("graph,1,2\nblock,0\ncopy,1,1\nhalt\n"), 0), 0b10);
}

#[test]
fn an_unreachable_block_touches_nothing() {
    assert_eq!(touched(&machine("graph,2,1\nblock,0\nhalt\nblock,1\nset,0,7\nhalt\n"), 0), 0);
}

#[test]
fn refusals_come_in_order_and_set_the_field_to_0() {
    let made = machine(TURN);
    let (table, wrong) = (&made.words()[..], [0; MACHINE_WORDS]);
    for state in [2, 63, 64, NONE, u32::MAX] {
        let refused = |number| TouchesFields { number, touched: 0 };
        assert_eq!(touches(table, state, 1), refused(9), "{state}");
        assert_eq!(touches(&wrong, state, 1), refused(10), "{state}");
        assert_eq!(touches(&wrong[1..], state, 1), refused(7), "{state}");
    }
    assert_eq!(touches(table, 0, 1), TouchesFields { number: 0, touched: 1 });
    assert_eq!(touches(table, 0, 0), TouchesFields { number: 0, touched: 0 });
    let fields = |number, state| FirstTouchingFields { number, state };
    assert_eq!(first_touching(&wrong, 0), fields(10, 0));
    assert_eq!(first_touching(&wrong[1..], 0), fields(7, 0));
    assert_eq!(first_touching(table, 0), fields(0, 1));
    assert_eq!(first_touching(table, 8), fields(0, NONE));
}

/// The layout before touch words had 13,634 words.
#[test]
fn a_table_without_touch_words_is_short() {
    let made = machine(TURN);
    let old = &made.words()[..13_634];
    assert_eq!(Machine::from_words(old), Err(Refusal::TableShort));
    assert_eq!((touches(old, 0, 1).number, first_touching(old, 1).number), (7, 7));
    assert_eq!(run_machine(old, &mut [0; 16], 0, 1).number, 7);
    assert_eq!(run_machine_with_words(old, &mut [0; 16], 0, 1, &[1]).number, 7);
}

/// All four operations on machines, which come to 10 before 12 and 9. Registers below R are 0 to 7.
#[test]
fn a_touch_word_with_one_wrong_bit_is_refused() {
    let made = machine(TURN);
    for (state, bit) in (0..2).flat_map(|state| (0..32).map(move |bit| (state, bit))) {
        let word = made.words()[place(state, TOUCH)] ^ 1 << bit;
        let wrong = with(&made, state, TOUCH, word);
        let (table, mut file) = (&wrong.words()[..], [5; 16]);
        let run = MachineRunFields { number: 10, halted: 0, count: 0, next: 0, flag: 0, blocks: 0 };
        assert_eq!(run_machine(table, &mut file, 9, 1), run, "state {state}, bit {bit}");
        let (outcome, count, next, flag, blocks) = (0, 0, 0, 0, 0);
        let run = MachineRunWithWordsFields { number: 10, outcome, count, next, flag, blocks };
        assert_eq!(run_machine_with_words(table, &mut file, 9, 1, &[1]), run);
        assert_eq!(file, [5; 16]);
        assert_eq!(touches(table, 9, bit), TouchesFields { number: 10, touched: 0 });
        assert_eq!(first_touching(table, bit), FirstTouchingFields { number: 10, state: 0 });
        assert_eq!(wrong.touches(0, bit), Err(Refusal::NoMachine));
        assert_eq!(wrong.first_touching(bit), Err(Refusal::NoMachine));
    }
}

/// There are two states and eight registers.
#[test]
fn records_from_n_up_and_references_from_r_up_are_not_looked_at() {
    let made = with(&machine(TURN), 2, TOUCH, u32::MAX);
    let made = with(&made, 0, NEXT_REGISTERS + 8, 16);
    assert_eq!([0, 1].map(|state| touched(&made, state)), [0b1110_0110, 0b1111_1111]);
    assert_eq!(made.first_touching(8), Ok(None));
}

/// The word follows the references, whatever they are. In state 0, register 3 is given the word of
/// register 4, then register 1 its own.
#[test]
fn a_changed_reference_needs_a_changed_touch_word() {
    let made = machine(TURN);
    let moved = with(&made, 0, NEXT_REGISTERS + 3, 4);
    assert_eq!(moved.first_touching(3), Err(Refusal::NoMachine));
    let moved = with(&moved, 0, TOUCH, 0b1110_1110);
    assert_eq!(touched(&moved, 0), 0b1110_1110);
    assert_eq!((made.first_touching(3), moved.first_touching(3)), (Ok(Some(1)), Ok(Some(0))));
    let kept = with(&made, 0, NEXT_REGISTERS + 1, 1);
    assert_eq!(kept.first_touching(1), Err(Refusal::NoMachine));
    let kept = with(&kept, 0, TOUCH, 0b1110_0100);
    assert_eq!(touched(&kept, 0), 0b1110_0100);
    assert_eq!((made.first_touching(1), kept.first_touching(1)), (Ok(Some(0)), Ok(Some(1))));
}
