//! How many blocks a machine's cycles ran, R-7 of paper 02.

use gutkavu::layout::machine::{ARRIVALS, BLOCK_STATES};
use gutkavu::layout::MOST_BLOCKS;
use gutkavu::operations::{bounds, first_touching, run_machine, run_machine_with_words, touches};
use gutkavu::operations::{MachineRunFields, MachineRunWithWordsFields};
use gutkavu::{Graph, Machine, Outcome, Refusal, MACHINE_WORDS, NONE};
use Outcome::{Dry, Halted, Spent};

/// The reference of each block's arrival, worked out by hand; 0 for a block that is unreachable.
const EXAMPLES: [(&str, &[u32]); 10] = [
    (include_str!("../../../examples/gcd.txt"), &[16, 16, 18, 21, 22, 19]),
    (include_str!("../../../examples/p9.txt"), &[16, 16, 19, 16, 16]),
    (include_str!("../../../examples/p10.txt"), &[16, 16, 16, 19]),
    (include_str!("../../../examples/p11.txt"), &[16]),
    (include_str!("../../../examples/p12.txt"), &[16, 16, 0]),
    (include_str!("../../../examples/figure5.txt"), &[16, 16, 18, 16, 16, 16, 16]),
    (include_str!("../../../examples/table1.txt"), &[16, 16, 22, 22, 43, 16, 29]),
    (include_str!("../../../examples/swing.txt"), &[16, 23, 25, 26, 31, 41, 50]),
    (include_str!("../../../examples/turn.txt"), &[16, 16, 21, 24, 34, 37, 48, 52]),
    (include_str!("../../../examples/wrap.txt"), &[16, 16, 18, 22, 19]),
];

const GCD: &str = EXAMPLES[0].0;
const P11: &str = EXAMPLES[3].0;
const TURN: &str = EXAMPLES[8].0;

/// Adds up its words in r0, two blocks a cycle, and halts on a word of 0.
const SUM: &str = "graph,3,3\nblock,0\nin,1\nite,ne,1,2,1,2\nblock,1\nadd,0,0,1\ngoto,0\n\
block,2\nhalt\n";

fn graph(text: &str) -> Graph {
    text.parse().expect("a graph")
}

fn machine(text: &str) -> Machine {
    graph(text).synthesise()
}

fn registers(words: &[u32]) -> [u32; 16] {
    let mut registers = [0; 16];
    registers[..words.len()].copy_from_slice(words);
    registers
}

/// The table with other words for a block's state and its arrival.
fn with(machine: &Machine, block: usize, state: u32, arrival: u32) -> [u32; MACHINE_WORDS] {
    let mut words = *machine.words();
    words[BLOCK_STATES + block] = state;
    words[ARRIVALS + block] = arrival;
    words
}

/// The blocks that each cycle ran, a cycle a run, until the words end or the machine halts.
fn by_cycle(machine: &Machine, start: u32, mut registers: [u32; 16], words: &[u32]) -> Vec<u64> {
    let (mut state, mut blocks) = (Some(start), Vec::new());
    for word in words {
        let Some(start) = state else { break };
        let run = machine.run_with_words(&mut registers, start, 1, &[*word]).expect("a run");
        assert_eq!(run.count, 1);
        blocks.push(run.blocks);
        state = run.next;
    }
    blocks
}

#[test]
fn arrivals_of_the_examples() {
    for (text, references) in EXAMPLES {
        let machine = machine(text);
        let (arrivals, rest) = machine.words()[ARRIVALS..].split_at(references.len());
        assert_eq!(arrivals, references, "{text}");
        assert!(rest.iter().all(|&word| word == 0), "{text}");
        assert_eq!(rest.len() + references.len(), MOST_BLOCKS);
        for block in 0..=MOST_BLOCKS as u32 {
            let reference = references.get(block as usize).copied().filter(|&word| word != 0);
            assert_eq!(machine.arrival_of(block), reference, "{text}block {block}");
            assert_eq!(machine.state_of(block).is_some(), reference.is_some());
        }
        assert_eq!([NONE, u32::MAX].map(|block| machine.arrival_of(block)), [None; 2]);
    }
}

/// P8: state 0 runs block 0; then come 1 2 3, 1 2 4, and 1 5.
#[test]
fn the_greatest_common_divisor_runs_nine_blocks() {
    let (machine, start) = (machine(GCD), registers(&[12, 18]));
    assert_eq!(by_cycle(&machine, 0, start, &[0; 9]), [1, 3, 3, 2]);
    for (budget, blocks) in (0..).zip([0, 1, 4, 7, 9, 9]) {
        let run = machine.run(&mut start.clone(), 0, budget).expect("a run");
        assert_eq!((run.halted, run.blocks), (budget >= 4, blocks), "{budget}");
    }
    let run = machine.run(&mut start.clone(), 1, 1_000).expect("a run");
    assert_eq!((run.count, run.blocks), (3, 8));
}

#[test]
fn the_rate_of_turn_runs_25_blocks() {
    let (machine, words) = (machine(TURN), [10, 65_346, 410, 10, 65_146, 160]);
    let start = registers(&[0, 0, 0, -300i32 as u32, 300]);
    assert_eq!(by_cycle(&machine, 0, start, &words), [1, 5, 6, 4, 5, 4]);
    let run = machine.run_with_words(&mut start.clone(), 0, 1_000, &words).expect("a run");
    assert_eq!((run.outcome, run.count, run.blocks), (Dry, 6, 25));
}

/// For each number of words, from one state: what the machine answers, spent, dry or halted, and
/// the sum over its cycles are what the graph runs from the state's starter over the same arrivals.
fn agrees(graph: &Graph, machine: &Machine, state: u32, start: [u32; 16], words: &[u32]) {
    let starter = machine.starter(state).expect("a state");
    let by_cycle = by_cycle(machine, state, start, words);
    for k in 0..=words.len() {
        let words = &words[..k];
        let by_graph = graph
            .run_with_words(&mut start.clone(), starter, u32::MAX, words, machine.starters())
            .expect("a run");
        let by_machine = |budget| {
            machine.run_with_words(&mut start.clone(), state, budget, words).expect("a run")
        };
        let (spent, ended) = (by_machine(k as u32), by_machine(u32::MAX));
        assert_eq!(ended.outcome, by_graph.outcome);
        assert_eq!(spent.outcome, if ended.outcome == Dry { Spent } else { Halted });
        let blocks = u64::from(by_graph.count);
        assert_eq!([spent.blocks, ended.blocks], [blocks; 2], "state {state} of {graph}{start:?}");
        assert_eq!(by_cycle.iter().take(k).sum::<u64>(), blocks, "state {state} of {graph}");
    }
}

/// Numbers that look random: xorshift, with the state at first.
struct Numbers(u64);

impl Numbers {
    fn next(&mut self) -> u32 {
        self.0 ^= self.0 << 13;
        self.0 ^= self.0 >> 7;
        self.0 ^= self.0 << 17;
        (self.0 >> 32) as u32
    }

    fn below(&mut self, limit: u32) -> u32 {
        self.next() % limit
    }

    /// A small word, or any.
    fn word(&mut self) -> u32 {
        match self.below(4) {
            0 => self.next(),
            1 => self.below(8).wrapping_neg(),
            _ => self.below(8),
        }
    }

    /// The text of a graph of two registers. Targets are near, so that ways join.
    fn text(&mut self) -> String {
        let blocks = 1 + self.below(12);
        let mut text = format!("graph,{blocks},2\n");
        for block in 0..blocks {
            let mut near = || (block + self.below(5)).saturating_sub(1).min(blocks - 1);
            let (t, f) = (near(), near());
            let (instruction, comparison) = (self.below(4), self.below(4));
            text += &format!("block,{block}\n");
            text += ["", "in,0\n", "add,0,0,1\n", "sub,1,1,0\n"][instruction as usize];
            text += &match comparison {
                0 if block % 3 == 0 => "halt\n".to_string(),
                0 => format!("goto,{t}\n"),
                1 => format!("ite,ltu,0,1,{t},{f}\n"),
                2 => format!("ite,eq,0,1,{t},{f}\n"),
                _ => format!("ite,lt,1,0,{t},{f}\n"),
            };
        }
        text
    }
}

#[test]
fn from_every_starter_they_are_the_blocks_of_the_graph() {
    let mut numbers = Numbers(0x9E37_79B9_7F4A_7C15);
    let examples = EXAMPLES.map(|(text, _)| text.to_string()).into_iter().cycle().take(100);
    let drawn: Vec<String> = (0..1_000).map(|_| numbers.text()).collect();
    for text in examples.chain(drawn) {
        let graph = graph(&text);
        let machine = graph.synthesise();
        for state in 0..machine.states() {
            let start = std::array::from_fn(|_| numbers.word());
            let words: [u32; 12] = std::array::from_fn(|_| numbers.word());
            agrees(&graph, &machine, state, start, &words);
        }
    }
}

/// A run without words counts as one with words that nothing reads.
#[test]
fn runs_without_words_count_the_same() {
    let mut numbers = Numbers(0xD1B5_4A32_D192_ED03);
    for (text, _) in EXAMPLES.into_iter().filter(|&(text, _)| text != TURN) {
        let machine = machine(text);
        for (state, budget) in (0..machine.states()).cycle().zip(0..40) {
            let start: [u32; 16] = std::array::from_fn(|_| numbers.word());
            let run = machine.run(&mut start.clone(), state, budget).expect("a run");
            let same = machine.run_with_words(&mut start.clone(), state, budget, &[7; 40]);
            let same = same.expect("a run");
            assert_eq!((run.count, run.blocks), (same.count, same.blocks), "{text}");
        }
    }
}

/// They share one reference, that of the starter's arrival.
#[test]
fn each_block_of_a_chain_counts() {
    let chain: String = (0..63).map(|k| format!("block,{k}\ngoto,{}\n", k + 1)).collect();
    let halting = machine(&format!("graph,64,1\n{chain}block,63\nhalt\n"));
    assert_eq!(halting.words()[ARRIVALS..], [16; 64]);
    let run = halting.run(&mut [0; 16], 0, 9).expect("a run");
    assert_eq!((run.halted, run.count, run.blocks), (true, 1, 64));
    let turning = machine(&format!("graph,64,1\n{chain}block,63\ngoto,0\n"));
    let run = turning.run(&mut [0; 16], 0, 100_000).expect("a run");
    assert_eq!((run.halted, run.count, run.blocks), (false, 100_000, 6_400_000));
}

#[test]
fn an_unreachable_block_does_not_count() {
    let machine = machine("graph,3,1\nblock,0\nhalt\nblock,1\ngoto,0\nblock,2\nhalt\n");
    assert_eq!(machine.words()[ARRIVALS..][..3], [16, 0, 0]);
    assert_eq!(machine.run(&mut [0; 16], 0, 9).expect("a run").blocks, 1);
}

/// Spent, halted and dry; in C's fields.
#[test]
fn every_outcome_sets_the_field() {
    let made = machine(SUM);
    for (budget, words, outcome, count, next, blocks) in [
        (0, &[][..], 0, 0, 0, 0),
        (1, &[], 2, 0, 0, 0),
        (2, &[3, 4, 5], 0, 2, 0, 4),
        (9, &[3, 4, 5], 2, 3, 0, 6),
        (9, &[3, 4, 0], 1, 3, 255, 6),
    ] {
        let run = run_machine_with_words(made.words(), &mut [0; 16], 0, budget, words);
        let (number, flag) = (0, 0);
        let expected = MachineRunWithWordsFields { number, outcome, count, next, flag, blocks };
        assert_eq!(run, expected);
    }
    let made = machine(GCD);
    for (budget, halted, count, next, blocks) in
        [(0, 0, 0, 0, 0), (3, 0, 3, 1, 7), (4, 1, 4, 255, 9), (9, 1, 4, 255, 9)]
    {
        let run = run_machine(made.words(), &mut registers(&[12, 18]), 0, budget);
        let (number, flag) = (0, 0);
        assert_eq!(run, MachineRunFields { number, halted, count, next, flag, blocks });
    }
}

/// Every operation on machines refuses the table with a number, sets all fields to 0 and leaves
/// every buffer as it was. The start or state given is none, and some of the tables hold code 20.
fn all_refuse(table: &[u32], number: u32) {
    let (mut file, mut lowest, mut highest) = ([5; 16], [1; 16], [0; 16]);
    let (halted, outcome, count, next, flag, blocks) = (0, 0, 0, 0, 0, 0);
    let run = MachineRunFields { number, halted, count, next, flag, blocks };
    assert_eq!(run_machine(table, &mut file, 64, 9), run);
    let run = MachineRunWithWordsFields { number, outcome, count, next, flag, blocks };
    assert_eq!(run_machine_with_words(table, &mut file, 64, 9, &[7; 9]), run);
    let answer = touches(table, 64, 0);
    assert_eq!((answer.number, answer.touched), (number, 0));
    let answer = first_touching(table, 0);
    assert_eq!((answer.number, answer.state), (number, 0));
    assert_eq!(bounds(table, &mut lowest, &mut highest, 64), number);
    assert_eq!((file, lowest, highest), ([5; 16], [1; 16], [0; 16]));
}

fn admitted(table: &[u32]) {
    assert_eq!(run_machine_with_words(table, &mut [5; 16], 0, 3, &[7; 9]).number, 0);
    assert_eq!((touches(table, 0, 0).number, first_touching(table, 0).number), (0, 0));
    assert_eq!(bounds(table, &mut [0; 16], &mut [1; 16], 0), 0);
}

#[test]
fn a_damaged_block_state_is_refused() {
    for (text, references) in EXAMPLES {
        let made = machine(text);
        let n = made.states();
        for (block, arrival) in (0..64).map(|k| (k, references.get(k).copied().unwrap_or(0))) {
            for state in [n, 63, 64, 254, 256, 511, 1 << 16, u32::MAX - 1, u32::MAX] {
                all_refuse(&with(&made, block, state, arrival), 10);
                all_refuse(&with(&made, block, state, 0), 10);
            }
            // A block is absent with 0 alone, and present in a state that has the wire.
            for arrival in [arrival, 0] {
                let table = with(&made, block, NONE, arrival);
                if arrival == 0 {
                    admitted(&table)
                } else {
                    all_refuse(&table, 10)
                }
                for state in 0..n {
                    let wires = made.wires(state).expect("a state");
                    let table = with(&made, block, state, arrival);
                    let present = (16..16 + wires).contains(&arrival);
                    if present {
                        admitted(&table)
                    } else {
                        all_refuse(&table, 10)
                    }
                }
            }
        }
    }
}

#[test]
fn a_damaged_arrival_is_refused() {
    for (text, _) in EXAMPLES {
        let made = machine(text);
        for block in 0..64 {
            let state = made.words()[BLOCK_STATES + block];
            let damaged = |arrival| with(&made, block, state, arrival);
            let Some(wires) = made.wires(state) else {
                admitted(&damaged(0));
                for arrival in [1, 15, 16, 17, NONE, u32::MAX] {
                    all_refuse(&damaged(arrival), 10);
                }
                continue;
            };
            for arrival in [0, 1, 15, 16 + wires, 17 + wires, 3_088, u32::MAX - 15, u32::MAX] {
                all_refuse(&damaged(arrival), 10);
            }
            (16..16 + wires).for_each(|arrival| admitted(&damaged(arrival)));
        }
    }
}

/// After 10 come 12 and 9, before it 7; each sets the field to 0.
#[test]
fn refused_runs_answer_0_blocks() {
    let made = machine(SUM);
    let (table, mut file) = (&made.words()[..], [5; 16]);
    let mut both = |table: &[u32], start| {
        let run = run_machine(table, &mut file, start, 9);
        let with_words = run_machine_with_words(table, &mut file, start, 9, &[1]);
        assert_eq!((run.blocks, with_words.blocks), (0, 0));
        (run.number, with_words.number)
    };
    assert_eq!(both(table, 1), (12, 9));
    assert_eq!(both(&with(&made, 63, 0, 0), 1), (10, 10));
    assert_eq!(both(&with(&made, 63, 0, 0)[1..], 1), (7, 7));
}

/// The wires of the one state are `set 1`, the word of the instruction, and the next state.
#[test]
fn any_nonzero_word_counts_as_one() {
    for (literal, counts) in [(1, 1), (0, 0), (-5, 1), (i32::MIN, 1), (256, 1)] {
        let made = machine(&format!("graph,1,1\nblock,0\nset,0,{literal}\nhalt\n"));
        assert_eq!(made.wires(0), Some(3));
        for (arrival, blocks) in [(16, 1), (17, counts), (18, 1)] {
            let run = run_machine(&with(&made, 0, 0, arrival), &mut [0; 16], 0, 9);
            assert_eq!((run.number, run.halted, run.blocks), (0, 1, blocks), "{literal}");
        }
    }
}

/// A cycle looks at all 64 blocks and counts those of its own state.
#[test]
fn the_blocks_of_the_state_are_counted() {
    let made = machine(GCD);
    let run = |table: &[u32]| {
        let run = run_machine(table, &mut registers(&[12, 18]), 0, 9);
        assert_eq!((run.number, run.halted, run.count, run.flag), (0, 1, 4, 0));
        run.blocks
    };
    for block in 6..64 {
        // Three cycles are in state 1; block 4 runs in one of them.
        let blocks = [(0, 16), (1, 16), (1, 22)].map(|(s, r)| run(&with(&made, block, s, r)));
        assert_eq!(blocks, [9 + 1, 9 + 3, 9 + 1], "{block}");
    }
    // Without a block, what it ran is left out.
    let without = |block| run(&with(&made, block, NONE, 0));
    assert_eq!([0, 1, 2, 3, 4, 5].map(without), [8, 6, 7, 8, 8, 8]);
}

#[test]
fn as_many_as_there_are_blocks() {
    let mut words = *machine(P11).words();
    words[BLOCK_STATES..][..64].fill(0);
    words[ARRIVALS..].fill(16);
    for budget in [0, 1, 100_000] {
        let run = run_machine(&words, &mut [0; 16], 0, budget);
        assert_eq!((run.number, run.count, run.blocks), (0, budget, 64 * u64::from(budget)));
    }
}

/// The layout before had 13,698 words.
#[test]
fn a_table_of_the_layout_before_is_short() {
    for (text, _) in EXAMPLES {
        let made = machine(text);
        let before = &made.words()[..ARRIVALS];
        assert_eq!(before.len(), 13_698);
        assert_eq!(Machine::from_words(before), Err(Refusal::TableShort));
        all_refuse(before, 7);
        all_refuse(&made.words()[..MACHINE_WORDS - 1], 7);
        // In a longer buffer the words behind it are taken for arrivals.
        all_refuse(&[before, &[0; 100]].concat(), 10);
    }
}

/// As the header says: without blocks it runs as it did.
#[test]
fn a_table_of_the_layout_before_is_converted() {
    for (text, _) in EXAMPLES {
        let made = machine(text);
        let mut words = *made.words();
        words[BLOCK_STATES..][..64].fill(NONE);
        words[ARRIVALS..].fill(0);
        let converted = Machine::from_words(&words).expect("long enough");
        for state in 0..made.states() {
            let (mut file, mut file_too) = ([3; 16], [3; 16]);
            let run = made.run_with_words(&mut file, state, 9, &[7; 9]).expect("a run");
            let run_too = converted.run_with_words(&mut file_too, state, 9, &[7; 9]);
            let run_too = run_too.expect("a run");
            assert_eq!(run_too.blocks, 0);
            assert_eq!(
                (run.outcome, run.count, run.next),
                (run_too.outcome, run_too.count, run_too.next)
            );
            assert_eq!((run.flag, file), (run_too.flag, file_too));
        }
    }
}
