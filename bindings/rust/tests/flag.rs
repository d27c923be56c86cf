//! The flag of a sum that went over, R-2 of paper 02.

use gutkavu::layout::machine::{WIRES, WIRE_WORDS};
use gutkavu::operations::{run_graph, run_graph_with_words, run_machine, run_machine_with_words};
use gutkavu::operations::{
    MachineRunFields, MachineRunWithWordsFields, RunFields, RunWithWordsFields,
};
use gutkavu::{Graph, Machine, Outcome, Refusal};
use Outcome::{Dry, Halted, Spent};

const WRAP: &str = include_str!("../../../examples/wrap.txt");
const GCD: &str = include_str!("../../../examples/gcd.txt");

/// Adds up its words in r0, and halts on a word of 0.
const SUM: &str = "graph,3,3\nblock,0\nin,1\nite,ne,1,2,1,2\nblock,1\nadd,0,0,1\ngoto,0\n\
block,2\nhalt\n";

const HIGHEST: i32 = i32::MAX;
const LOWEST: i32 = i32::MIN;

fn graph(text: &str) -> Graph {
    text.parse().expect("a graph")
}

fn registers(values: &[i32]) -> [u32; 16] {
    let mut registers = [0; 16];
    for (register, &value) in registers.iter_mut().zip(values) {
        *register = value as u32;
    }
    registers
}

/// The first register and the flag after a run to the halt, then blocks and cycles. Graph and
/// machine leave the same registers and answer the same flag.
fn halted(text: &str, values: &[i32]) -> (i32, bool, u32, u32) {
    let graph = graph(text);
    let (mut by_graph, mut by_machine) = (registers(values), registers(values));
    let blocks = graph.run(&mut by_graph, 0, 1_000).expect("a run");
    let cycles = graph.synthesise().run(&mut by_machine, 0, 1_000).expect("a run");
    assert!(blocks.halted && cycles.halted);
    assert_eq!((by_graph, blocks.flag), (by_machine, cycles.flag));
    (by_graph[0] as i32, blocks.flag, blocks.count, cycles.count)
}

/// The places of the machine's add and sub wires in its table.
fn sums(machine: &Machine) -> Vec<usize> {
    let wires = (WIRES..).step_by(WIRE_WORDS).take(machine.wires_in_all() as usize);
    wires.filter(|&wire| [3, 4].contains(&machine.words()[wire])).collect()
}

/// The machine with another word c in all its add and sub wires.
fn with_c(machine: &Machine, c: u32) -> Machine {
    let mut words = *machine.words();
    for wire in sums(machine) {
        words[wire + 3] = c;
    }
    Machine::from_words(&words).expect("long enough")
}

#[test]
fn it_is_the_signed_result_that_goes_over() {
    for (name, a, b, result, over) in [
        ("add", HIGHEST, 1, LOWEST, true),
        ("add", HIGHEST, 0, HIGHEST, false),
        ("add", HIGHEST, HIGHEST, -2, true),
        ("add", HIGHEST, LOWEST, -1, false),
        ("add", LOWEST, -1, HIGHEST, true),
        ("add", LOWEST, 0, LOWEST, false),
        ("add", LOWEST, LOWEST, 0, true),
        ("add", -1, 1, 0, false),
        ("add", -1, -1, -2, false),
        ("sub", LOWEST, 1, HIGHEST, true),
        ("sub", LOWEST, 0, LOWEST, false),
        ("sub", LOWEST, LOWEST, 0, false),
        ("sub", LOWEST, HIGHEST, 1, true),
        ("sub", HIGHEST, -1, LOWEST, true),
        ("sub", HIGHEST, LOWEST, -1, true),
        ("sub", 0, LOWEST, LOWEST, true),
        ("sub", -1, LOWEST, HIGHEST, false),
        ("sub", 0, 1, -1, false),
    ] {
        let text = format!("graph,1,2\nblock,0\n{name},0,0,1\nhalt\n");
        assert_eq!(halted(&text, &[a, b]), (result, over, 1, 1), "{name} {a} {b}");
    }
}

#[test]
fn other_instructions_raise_nothing() {
    for line in ["shl,0,0,1", "xor,0,0,1", "or,0,0,1", "and,0,0,1", "sar,0,0,1", "shr,0,0,1"] {
        let text = format!("graph,1,2\nblock,0\n{line}\nhalt\n");
        for (a, b) in [(HIGHEST, 1), (LOWEST, LOWEST), (-1, -1)] {
            assert!(!halted(&text, &[a, b]).1, "{line} {a} {b}");
        }
    }
}

#[test]
fn the_rate_that_is_summed_up() {
    let step = 300_000_000;
    for (rate, step, limit, steps, answer) in [
        (0, step, HIGHEST, 8, (-1_894_967_296, true, 27, 10)),
        (0, step, 2_000_000_000, 8, (2_100_000_000, false, 26, 10)),
        (0, step, HIGHEST, 12, (-694_967_296, true, 39, 14)),
        (-600_000_000, step, HIGHEST, 3, (300_000_000, false, 12, 5)),
        (0, -step, HIGHEST, 8, (1_894_967_296, true, 27, 10)),
    ] {
        assert_eq!(halted(WRAP, &[rate, step, limit, steps]), answer);
    }
}

/// Block 1 is in the state of block 0 and its sum is worked out in each cycle, but block 2 is
/// passed.
#[test]
fn a_block_that_is_not_passed_raises_nothing() {
    let text = "graph,3,2\nblock,0\nite,lt,0,1,1,2\nblock,1\nadd,0,1,1\nhalt\nblock,2\nhalt\n";
    assert_eq!(graph(text).synthesise().states(), 1);
    assert_eq!(halted(text, &[HIGHEST, HIGHEST]), (HIGHEST, false, 2, 1));
    assert_eq!(halted(text, &[0, HIGHEST]), (-2, true, 2, 1));
}

/// The register that went over is written again, in the same block and later.
#[test]
fn a_flag_stays_set() {
    let text = "graph,2,2\nblock,0\nadd,0,0,1\nset,0,0\ngoto,1\nblock,1\nadd,0,0,0\nhalt\n";
    assert_eq!(halted(text, &[HIGHEST, 1]), (0, true, 2, 1));
    let graph = graph(WRAP);
    let machine = graph.synthesise();
    let start = registers(&[0, 300_000_000, HIGHEST, 12]);
    // The eighth sum is in the 25th block and in the ninth cycle.
    for budget in 0..=39 {
        let run = graph.run(&mut start.clone(), 0, budget).expect("a run");
        assert_eq!(run.flag, budget >= 25, "blocks {budget}");
    }
    for budget in 0..=14 {
        let run = machine.run(&mut start.clone(), 0, budget).expect("a run");
        assert_eq!(run.flag, budget >= 9, "cycles {budget}");
    }
}

#[test]
fn each_run_starts_with_a_clear_flag() {
    let machine = graph(WRAP).synthesise();
    let (mut registers, mut state, mut raised) =
        (registers(&[0, 300_000_000, HIGHEST, 12]), Some(0), Vec::new());
    while let Some(start) = state {
        let run = machine.run(&mut registers, start, 1).expect("a run");
        raised.push(run.flag);
        state = run.next;
    }
    assert_eq!(raised.len(), 14);
    assert_eq!(raised.iter().position(|&flag| flag), Some(8));
    assert_eq!(raised.iter().filter(|&&flag| flag).count(), 1);
}

#[test]
fn runs_with_words_answer_it_with_each_outcome() {
    let graph = graph(SUM);
    let machine = graph.synthesise();
    let answers = |blocks, cycles, words: &[u32]| {
        let (mut by_graph, mut by_machine) = ([0; 16], [0; 16]);
        let starters = machine.starters();
        let run = graph.run_with_words(&mut by_graph, 0, blocks, words, starters).expect("a run");
        let same = machine.run_with_words(&mut by_machine, 0, cycles, words).expect("a run");
        assert_eq!((by_graph, run.outcome, run.flag), (by_machine, same.outcome, same.flag));
        (run.outcome, run.flag)
    };
    let highest = HIGHEST as u32;
    assert_eq!(answers(1_000, 1_000, &[highest, 1, 5, 0]), (Halted, true));
    assert_eq!(answers(1_000, 1_000, &[highest, 1, 5]), (Dry, true));
    assert_eq!(answers(6, 3, &[highest, 1, 5]), (Spent, true));
    assert_eq!(answers(1_000, 1_000, &[highest, highest + 1, 0]), (Halted, false));
    assert_eq!(answers(1_000, 1_000, &[highest]), (Dry, false));
    assert_eq!(answers(2, 1, &[highest, 1]), (Spent, false));
}

/// Whatever a caller's field held before.
#[test]
fn refused_runs_set_it_to_0() {
    let graph = graph(SUM);
    let machine = graph.synthesise();
    let (graph, machine, mut file) = (graph.words(), machine.words(), [5; 16]);
    let refused = RunFields { number: 12, halted: 0, count: 0, next: 0, flag: 0 };
    assert_eq!(run_graph(graph, &mut file, 0, 9), refused);
    let run = run_machine(machine, &mut file, 0, 9);
    assert_eq!((run.number, run.flag), (12, 0));
    let refused = RunWithWordsFields { number: 11, outcome: 0, count: 0, next: 0, flag: 0 };
    assert_eq!(run_graph_with_words(graph, &mut file, 0, 9, &[1], &[]), refused);
    let run = run_machine_with_words(machine, &mut file, 1, 9, &[1]);
    assert_eq!((run.number, run.flag), (9, 0));
}

/// In C's fields it is 1.
#[test]
fn a_raised_flag_is_1() {
    let graph = graph(SUM);
    let (machine, words) = (graph.synthesise(), [HIGHEST as u32, 1]);
    let (number, outcome, next, flag) = (0, 2, 0, 1);
    let by_graph = run_graph_with_words(graph.words(), &mut [0; 16], 0, 9, &words, &[0]);
    assert_eq!(by_graph, RunWithWordsFields { number, outcome, count: 4, next, flag });
    let by_machine = run_machine_with_words(machine.words(), &mut [0; 16], 0, 9, &words);
    let dry = MachineRunWithWordsFields { number, outcome, count: 2, next, flag, blocks: 4 };
    assert_eq!(by_machine, dry);
    let graph: Graph = "graph,1,1\nblock,0\nadd,0,0,0\nhalt\n".parse().expect("a graph");
    let (machine, start) = (graph.synthesise(), registers(&[LOWEST]));
    let (halted, count, next) = (1, 1, 255);
    let by_graph = run_graph(graph.words(), &mut start.clone(), 0, 9);
    assert_eq!(by_graph, RunFields { number, halted, count, next, flag });
    let by_machine = run_machine(machine.words(), &mut start.clone(), 0, 9);
    assert_eq!(by_machine, MachineRunFields { number, halted, count, next, flag, blocks: 1 });
}

/// The two differences of state 1 are in blocks 3 and 4, which wires 5 and 6 arrive at.
#[test]
fn word_c_is_the_arrival_of_the_block() {
    let machine = graph(GCD).synthesise();
    let wires: Vec<&[u32]> =
        sums(&machine).iter().map(|&wire| &machine.words()[wire..][..WIRE_WORDS]).collect();
    assert_eq!(wires, [[4, 1, 0, 21], [4, 0, 1, 22]]);
}

#[test]
fn word_c_is_a_reference() {
    let text = "graph,1,2\nblock,0\nadd,0,0,1\nhalt\n";
    let machine = graph(text).synthesise();
    let run = |c| {
        let mut registers = registers(&[HIGHEST, 1]);
        with_c(&machine, c).run(&mut registers, 0, 9).map(|run| (run.flag, registers[0] as i32))
    };
    assert_eq!(sums(&machine), [WIRES + WIRE_WORDS]);
    // Registers 0 and 1, and wire 0; no third register, not the wire itself or a later one.
    for c in [0, 1, 16] {
        assert_eq!(run(c), Ok((true, LOWEST)), "{c}");
    }
    for c in [2, 15, 17, 18, u32::MAX] {
        assert_eq!(run(c), Err(Refusal::NoMachine), "{c}");
    }
}

/// Such a table runs as it did; its flag goes by register 0 and means nothing.
#[test]
fn a_table_from_before_is_admitted() {
    let machine = graph(WRAP).synthesise();
    let old = with_c(&machine, 0);
    for limit in [HIGHEST, 2_000_000_000] {
        let start = registers(&[0, 300_000_000, limit, 8]);
        let (mut left, mut left_too) = (start, start);
        let run = machine.run(&mut left, 0, 1_000).expect("a run");
        let run_too = old.run(&mut left_too, 0, 1_000).expect("a run");
        assert_eq!((run.halted, run.count, left), (run_too.halted, run_too.count, left_too));
        assert!(run_too.flag);
    }
}
