//! Blocks, instructions and wires as the tables hold them.

use gutkavu::layout::machine::*;
use gutkavu::{Code, Ending, Graph, Machine, Reference, Wire, MACHINE_WORDS};

/// The text of every example.
fn examples() -> Vec<String> {
    let folder = concat!(env!("CARGO_MANIFEST_DIR"), "/../../examples");
    let files = std::fs::read_dir(folder).expect("the examples");
    let paths = files.map(|file| file.expect("a file").path());
    let graphs = paths.filter(|path| path.extension().is_some_and(|ending| ending == "txt"));
    let texts: Vec<String> =
        graphs.map(|path| std::fs::read_to_string(path).expect("a text")).collect();
    assert!(texts.len() >= 10, "the examples are missing");
    texts
}

/// A text of every instruction, and of literals at the ends.
const EVERY: &str =
    "graph,3,16\nblock,0\nset,0,-2147483648\nset,15,2147483647\ncopy,1,2\nadd,3,4,5\n\
                     sub,6,7,8\nand,9,10,11\nor,12,13,14\nxor,15,0,1\nite,geu,2,3,1,2\nblock,1\n\
                     shl,2,3,4\nshr,5,6,7\nsar,8,9,10\nsx,11,12\nin,13\ngoto,2\nblock,2\nhalt\n";

/// The text of a graph, line by line from its blocks.
fn written(graph: &Graph) -> String {
    let mut text = format!("graph,{},{}\n", graph.blocks(), graph.registers());
    for number in 0..graph.blocks() {
        let block = graph.block(number).expect("a block below B");
        text += &format!("block,{number}\n");
        block.instructions.iter().for_each(|one| text += &format!("{one}\n"));
        text += &format!("{}\n", block.ending);
    }
    assert_eq!(graph.block(graph.blocks()), None);
    assert_eq!(graph.block(u32::MAX), None);
    text
}

#[test]
fn blocks_print_as_the_text_they_were_read_from() {
    for text in examples().into_iter().chain([EVERY.to_string()]) {
        assert_eq!(written(&text.parse().expect("a graph")), text);
    }
}

#[test]
fn endings_lead_to_their_targets() {
    let graph: Graph = EVERY.parse().expect("a graph");
    let ending = |number| graph.block(number).expect("a block").ending;
    let ite = Ending::Ite { comparison: Code::Geu, a: 2, b: 3, t: 1, f: 2 };
    assert_eq!((ending(0), ending(1), ending(2)), (ite, Ending::Goto(2), Ending::Halt));
    assert_eq!([0, 1, 2].map(|number| ending(number).targets()), [vec![1, 2], vec![2], vec![]]);
    let equal = Ending::Ite { comparison: Code::Eq, a: 0, b: 0, t: 4, f: 4 };
    assert_eq!(equal.targets(), [4, 4]);
}

#[test]
fn codes_have_the_numbers_and_words_of_the_paper() {
    let words = [
        "set", "copy", "add", "sub", "and", "or", "xor", "shl", "shr", "sar", "sx", "eq", "ne",
        "lt", "ge", "ltu", "geu", "andnot", "select", "in",
    ];
    assert_eq!(Code::ALL.map(Code::name), words);
    let numbers: Vec<u32> = (1..=20).collect();
    assert_eq!(Code::ALL.map(Code::number).to_vec(), numbers);
    assert!(numbers.iter().all(|&n| Code::from_number(n).map(Code::number) == Some(n)));
    assert_eq!([0, 21, u32::MAX].map(Code::from_number), [None; 3]);
    let operands = [0, 1, 2, 2, 2, 2, 2, 2, 2, 2, 1, 2, 2, 2, 2, 2, 2, 2, 3, 0];
    assert_eq!(Code::ALL.map(Code::operands), operands);
}

/// Each view is the words that the layout names.
#[test]
fn wires_are_those_of_the_table() {
    for text in examples() {
        let machine = text.parse::<Graph>().expect("a graph").synthesise();
        let words = machine.words();
        let mut seen = 0;
        for state in 0..machine.states() {
            let record = &words[RECORDS + state as usize * RECORD_WORDS..][..RECORD_WORDS];
            for index in 0..record[WIRE_COUNT] {
                let place = WIRES + (record[FIRST_WIRE] + index) as usize * WIRE_WORDS;
                let wire = machine.wire(state, index).expect("a wire");
                let Wire { code, a, b, c } = wire;
                assert_eq!([code.number(), a, b, c], words[place..place + WIRE_WORDS]);
                assert_eq!(wire.operands().len(), code.operands());
                seen += 1;
            }
            assert_eq!(machine.wire(state, record[WIRE_COUNT]), None);
            assert_eq!(machine.next_state(state), Some(Reference::from_word(record[NEXT_STATE])));
            for register in 0..machine.registers() {
                let word = record[NEXT_REGISTERS + register as usize];
                assert_eq!(
                    machine.next_register(state, register),
                    Some(Reference::from_word(word))
                );
            }
            assert_eq!(machine.next_register(state, machine.registers()), None);
        }
        assert_eq!(seen, machine.wires_in_all());
        assert_eq!(machine.wire(machine.states(), 0), None);
        assert_eq!(machine.next_state(machine.states()), None);
        assert_eq!(machine.next_register(machine.states(), 0), None);
    }
}

#[test]
fn a_sum_counts_where_its_block_arrives() {
    let text = include_str!("../../../examples/gcd.txt");
    let machine = text.parse::<Graph>().expect("a graph").synthesise();
    let wires = (0..machine.wires(1).expect("a state")).filter_map(|index| machine.wire(1, index));
    let sums: Vec<Wire> = wires.filter(|wire| wire.code == Code::Sub).collect();
    let arrival = |block| machine.arrival_of(block).map(Reference::from_word);
    assert_eq!(
        sums.iter().map(|wire| wire.counts_where()).collect::<Vec<_>>(),
        [3, 4].map(arrival)
    );
    assert_eq!(machine.wire(1, 0).expect("a wire").counts_where(), None);
}

#[test]
fn references_are_registers_and_wires() {
    let shown = [0, 15, 16, 21].map(|word| Reference::from_word(word).to_string());
    assert_eq!(shown, ["r0", "r15", "w0", "w5"]);
    assert_eq!(Reference::from_word(u32::MAX), Reference::Wire(u32::MAX - 16));
}

/// A machine of any words is shown as far as it can be, without a panic.
#[test]
fn machines_of_other_words() {
    for word in [0, 1, 16, 64, 255, 3_072, u32::MAX] {
        let machine = Machine::from_words(&[word; MACHINE_WORDS]).expect("words enough");
        for state in [0, 1, 63, 64, u32::MAX] {
            let first = machine.wire(state, 0);
            assert!(first.is_none() || Code::from_number(word).is_some());
            let _ = (machine.wire(state, u32::MAX), machine.next_state(state));
            let _ = (machine.next_register(state, 15), machine.next_register(state, 16));
        }
    }
}
