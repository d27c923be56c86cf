//! Shifts by the whole amount, R-6 of paper 02.

use gutkavu::{Bounds, Graph, Outcome};

/// r2, r3 and r4 become r0 shifted by r1: shl, shr, sar.
const SHIFTS: &str = "graph,2,5\nblock,0\nshl,2,0,1\ngoto,1\nblock,1\nshr,3,0,1\nsar,4,0,1\nhalt\n";

/// The same by the word that is read.
const SAMPLED: &str = "graph,1,5\nblock,0\nin,1\nshl,2,0,1\nshr,3,0,1\nsar,4,0,1\nhalt\n";

/// An amount, and what shl, shr and sar by it make of 0xa000_0001 and of 0x6000_0001.
const AMOUNTS: [(u32, [u32; 3], [u32; 3]); 11] = [
    (0, [0xa000_0001; 3], [0x6000_0001; 3]),
    (1, [0x4000_0002, 0x5000_0000, 0xd000_0000], [0xc000_0002, 0x3000_0000, 0x3000_0000]),
    (30, [0x4000_0000, 2, 0xffff_fffe], [0x4000_0000, 1, 1]),
    (31, [0x8000_0000, 1, 0xffff_ffff], [0x8000_0000, 0, 0]),
    (32, [0, 0, 0xffff_ffff], [0; 3]),
    (33, [0, 0, 0xffff_ffff], [0; 3]),
    (63, [0, 0, 0xffff_ffff], [0; 3]),
    (64, [0, 0, 0xffff_ffff], [0; 3]),
    (0x7fff_ffff, [0, 0, 0xffff_ffff], [0; 3]),
    (0x8000_0000, [0, 0, 0xffff_ffff], [0; 3]),
    (0xffff_ffff, [0, 0, 0xffff_ffff], [0; 3]),
];

fn graph(text: &str) -> Graph {
    text.parse().expect("a graph")
}

fn registers(first: &[u32]) -> [u32; 16] {
    let mut registers = [0; 16];
    registers[..first.len()].copy_from_slice(first);
    registers
}

/// Each operand with each amount and the registers that a run has to leave.
fn cases() -> impl Iterator<Item = (u32, u32, [u32; 16])> {
    AMOUNTS.into_iter().flat_map(|(amount, negative, positive)| {
        [(0xa000_0001, negative), (0x6000_0001, positive)]
            .map(|(word, [l, r, s])| (word, amount, registers(&[word, amount, l, r, s])))
    })
}

#[test]
fn graph_and_machine_shift_by_the_whole_amount() {
    let graph = graph(SHIFTS);
    let machine = graph.synthesise();
    for (word, amount, expected) in cases() {
        let mut by_graph = registers(&[word, amount]);
        let mut by_machine = by_graph;
        assert!(graph.run(&mut by_graph, 0, 9).expect("a run").halted);
        assert!(machine.run(&mut by_machine, 0, 9).expect("a run").halted);
        assert_eq!(by_graph, expected, "graph, {word} by {amount}");
        assert_eq!(by_machine, expected, "machine, {word} by {amount}");
    }
}

#[test]
fn a_word_that_is_read_is_a_whole_amount_too() {
    let graph = graph(SAMPLED);
    let machine = graph.synthesise();
    for (word, amount, expected) in cases() {
        let mut by_graph = registers(&[word]);
        let mut by_machine = by_graph;
        let blocks = graph.run_with_words(&mut by_graph, 0, 9, &[amount], &[0]).expect("a run");
        let cycles = machine.run_with_words(&mut by_machine, 0, 9, &[amount]).expect("a run");
        assert_eq!((blocks.outcome, cycles.outcome), (Outcome::Halted, Outcome::Halted));
        assert_eq!(by_graph, expected, "graph, {word} by {amount}");
        assert_eq!(by_machine, expected, "machine, {word} by {amount}");
    }
}

#[test]
fn bounds_of_single_values_are_exact() {
    let machine = graph(SHIFTS).synthesise();
    for (word, amount, expected) in cases() {
        let given = Bounds::exact(&registers(&[word, amount]));
        let next = machine.bounds(0, &given).expect("bounds");
        for (register, value) in expected.map(|word| word as i32).into_iter().enumerate() {
            assert_eq!(next.range(register), value..=value, "{word} by {amount}, r{register}");
        }
    }
}

#[test]
fn bounds_of_an_amount_that_is_not_known_are_full() {
    let machine = graph(SHIFTS).synthesise();
    let given = Bounds::exact(&[0; 16]).with(0, 5..=5).with(1, 31..=32);
    let next = machine.bounds(0, &given).expect("bounds");
    for register in 2..5 {
        assert_eq!(next.range(register), i32::MIN..=i32::MAX);
    }
}
