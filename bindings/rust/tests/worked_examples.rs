//! The worked examples of the scope paper, by the safe types.

use gutkavu::{Graph, Machine, MachineRun, Refusal, Run, NONE};

const P7: &str = "graph,6,2\nblock,0\ngoto,1\nblock,1\nite,ne,0,1,2,5\nblock,2\n\
ite,ltu,0,1,3,4\nblock,3\nsub,1,1,0\ngoto,1\nblock,4\nsub,0,0,1\ngoto,1\nblock,5\nhalt\n";

const P12: &str = "graph,3,1\nblock,0\ngoto,1\nblock,1\nhalt\nblock,2\ngoto,1\n";

/// Registers that begin with the given words; the others hold 7, 8, ..
fn registers(words: &[u32]) -> [u32; 16] {
    let mut registers = std::array::from_fn(|index| 7 + index as u32);
    registers[..words.len()].copy_from_slice(words);
    registers
}

fn graph(text: &str) -> Graph {
    text.parse().expect("a graph")
}

fn refusal(text: &str) -> (u32, u32) {
    let refused = Graph::read(text.as_bytes()).expect_err("no graph");
    assert_eq!(refused.refusal().number(), refused.number());
    (refused.number(), refused.line())
}

#[test]
fn p7_has_two_states() {
    let machine = graph(P7).synthesise();
    assert_eq!((machine.states(), machine.registers()), (2, 2));
    assert_eq!([0, 1, 2].map(|state| machine.starter(state)), [Some(0), Some(1), None]);
    assert_eq!([0, 1, 2].map(|state| machine.wires(state)), [Some(2), Some(18), None]);
    assert_eq!(machine.wires_in_all(), 20);
    assert_eq!(machine.state_of(0), Some(0));
    assert_eq!(machine.blocks(0).collect::<Vec<u32>>(), [0]);
    assert_eq!(machine.blocks(1).collect::<Vec<u32>>(), [1, 2, 3, 4, 5]);
    assert!([6, 63, 64, NONE, u32::MAX].iter().all(|&block| machine.state_of(block).is_none()));
}

#[test]
fn p8_runs_nine_blocks_in_four_cycles() {
    let graph = graph(P7);
    let (mut by_graph, mut by_machine) = (registers(&[12, 18]), registers(&[12, 18]));
    let run = graph.run(&mut by_graph, 0, 1_000);
    assert_eq!(run, Ok(Run { halted: true, count: 9, next: None, flag: false }));
    let run = graph.synthesise().run(&mut by_machine, 0, 1_000);
    assert_eq!(run, Ok(MachineRun { halted: true, count: 4, next: None, flag: false, blocks: 9 }));
    assert_eq!((by_graph, by_machine), (registers(&[6, 6]), registers(&[6, 6])));
}

#[test]
fn budgets_are_spent_before_the_halt() {
    let graph = graph(P7);
    let machine = graph.synthesise();
    let run = |count, next| Ok(Run { halted: false, count, next: Some(next), flag: false });
    assert_eq!(graph.run(&mut registers(&[12, 18]), 0, 0), run(0, 0));
    assert_eq!(graph.run(&mut registers(&[12, 18]), 0, 8), run(8, 5));
    let run = |count, next, blocks| {
        Ok(MachineRun { halted: false, count, next: Some(next), flag: false, blocks })
    };
    assert_eq!(machine.run(&mut registers(&[12, 18]), 0, 0), run(0, 0, 0));
    assert_eq!(machine.run(&mut registers(&[12, 18]), 0, 3), run(3, 1, 7));
    assert_eq!(machine.run(&mut registers(&[0, 5]), 0, 1_000), run(1_000, 1, 2_998));
}

#[test]
fn p12_leaves_block_2_without_a_state() {
    let machine = graph(P12).synthesise();
    assert_eq!(machine.states(), 1);
    assert_eq!([0, 1, 2].map(|block| machine.state_of(block)), [Some(0), Some(0), None]);
}

/// P5: -200 is below 0 as a signed number, and above it as an unsigned one.
#[test]
fn minus_200() {
    for (comparison, below) in [("lt", 1), ("ltu", 0)] {
        let text = format!(
            "graph,3,3\nblock,0\nite,{comparison},0,1,1,2\nblock,1\nset,2,1\nhalt\n\
block,2\nset,2,0\nhalt\n"
        );
        let graph = graph(&text);
        let start = registers(&[-200i32 as u32, 0]);
        let after = registers(&[4_294_967_096, 0, below]);
        let (mut by_graph, mut by_machine) = (start, start);
        assert!(graph.run(&mut by_graph, 0, 9).expect("a run").halted);
        assert!(graph.synthesise().run(&mut by_machine, 0, 9).expect("a run").halted);
        assert_eq!((by_graph, by_machine), (after, after));
    }
}

#[test]
fn refusals_of_texts_have_lines() {
    assert_eq!(refusal(""), (3, 1));
    assert_eq!(refusal("graph,65,1\n"), (2, 1));
    assert_eq!(refusal("graph,64,1\n"), (3, 2));
    assert_eq!(refusal("graph,1,1\nblock,0\ncopy,0,1\nhalt\n"), (4, 3));
    assert_eq!(refusal("graph,2,1\nblock,0\ngoto,2\nblock,1\nhalt\n"), (5, 3));
    assert_eq!(refusal("graph,1,1\nblock,0\nhalt"), (2, 3));
    assert_eq!(refusal(&"\n".repeat(16_384)), (2, 1));
    assert_eq!(refusal(&"\n".repeat(16_385)), (1, 0));
}

#[test]
fn refusals_print_their_meaning() {
    let refused = Graph::read(b"graph,1,1\nblock,0\nhalt").expect_err("no graph");
    assert_eq!(refused.to_string(), "refused 2 at line 3: no line form, or no line feed");
    let refused = Graph::read(&[b'x'; 16_385]).expect_err("no graph");
    assert_eq!(refused.to_string(), "refused 1: text too long");
    for number in (1..=13).chain(17..=18) {
        assert_eq!(Refusal::from_number(number).map(Refusal::number), Some(number));
    }
    assert!([0, 14, 15, 16, 19].iter().all(|&number| Refusal::from_number(number).is_none()));
}

#[test]
fn graphs_write_the_text_that_they_were_read_from() {
    let graph = graph(P7);
    assert_eq!((graph.blocks(), graph.registers()), (6, 2));
    assert_eq!(graph.write(), P7);
    assert_eq!(graph.to_string(), P7);
    assert_eq!(Graph::from_words(graph.words()), Ok(graph));
}

#[test]
fn words_that_are_no_graph_are_refused() {
    let mut words = *graph(P7).words();
    assert_eq!(Graph::from_words(&words[1..]), Err(Refusal::TableShort));
    words[0] = 65;
    assert_eq!(Graph::from_words(&words), Err(Refusal::NoGraph));
}

#[test]
fn words_that_are_no_machine_are_refused_when_run() {
    let made = graph(P7).synthesise();
    assert_eq!(Machine::from_words(made.words()), Ok(made.clone()));
    assert_eq!(Machine::from_words(&made.words()[1..]), Err(Refusal::TableShort));
    let mut words = *made.words();
    words[0] = u32::MAX;
    let machine = Machine::from_words(&words).expect("long enough");
    let mut file = registers(&[12, 18]);
    assert_eq!(machine.run(&mut file, 0, 9), Err(Refusal::NoMachine));
    assert_eq!(file, registers(&[12, 18]));
    assert_eq!((machine.states(), machine.wires_in_all()), (u32::MAX, 20));
    assert_eq!([63, 64].map(|state| machine.starter(state)), [Some(0), None]);
}

#[test]
fn starts_past_the_last_are_refused() {
    let graph = graph(P7);
    assert_eq!(graph.run(&mut registers(&[]), 6, 9), Err(Refusal::NoStart));
    assert_eq!(graph.synthesise().run(&mut registers(&[]), 2, 9), Err(Refusal::NoStart));
}
